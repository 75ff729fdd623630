"""On which machine figures were measured, and when."""

import os
import pathlib
import platform
import re
import time


def machine():
    model = re.search(r"^model name\s*: (.*)$", pathlib.Path("/proc/cpuinfo").read_text(), re.MULTILINE)
    return (f"{time.strftime('%Y-%m-%d %H:%M')}, {os.cpu_count()} processors"
            f"{' ' + model.group(1) if model else ''}, Linux {platform.release()}, "
            f"load {os.getloadavg()[0]:.0f}")
