"""The linkers that fold identical sections, where they are installed, on the objects of the benchmark."""
import re
import shutil
import subprocess

ARGUMENTS = ["-e", "_start", "--gc-sections", "--icf=safe", "-o"]

# each prints the sections that it folds into others, in its own words
FOLDED = {
    "ld.lld": r"removing identical section",
    "ld.gold": r"ICF folding section",
    "mold": r"removing identical section",
}


def installed():
    return [name for name in FOLDED if shutil.which(name)]


def command(name, path, output):
    return [name, *ARGUMENTS, output, path]


def merged(name, path, output):
    """How many sections it folds into others."""
    told = subprocess.run([*command(name, path, output), "--print-icf-sections"], check=True, capture_output=True, text=True)
    return len(re.findall(FOLDED[name], told.stdout + told.stderr))
