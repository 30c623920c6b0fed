"""What compare and store share: the driver, the generator and the model over whole scripts."""
import importlib.machinery
import importlib.util
import pathlib

import model

HERE = pathlib.Path(__file__).resolve().parent
DRIVER = HERE / "oracle" / "target" / "driver"


def generator():
    loader = importlib.machinery.SourceFileLoader("generate", str(HERE / "generate"))
    module = importlib.util.module_from_spec(importlib.util.spec_from_loader("generate", loader))
    loader.exec_module(module)
    return module


def modelled(lines):
    machine = model.Machine()
    return [answer for line in lines for answer in machine.feed(line)]
