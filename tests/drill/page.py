"""page.py PAGE PROGRAM LIBRARY: runs the commands of a page, its blocks marked sh, in one shell, with PROGRAM for crates/drill/out/drill and
LIBRARY for crates/drill_file_c/out/libdrill_file_c.a. Each has to print what stands in the block behind it, or nothing where no block
stands there."""
import pathlib
import re
import subprocess
import sys

page, program, library = pathlib.Path(sys.argv[1]), sys.argv[2], sys.argv[3]
END = "===== a command of the page ends here ====="
blocks = re.findall(r"^```sh\n(.*?)^```\n(?:\n```\n(.*?)^```\n)?", page.read_text(), re.M | re.S)
script = "".join(f"{command}echo '{END}'\n" for command, _ in blocks)
for there, here in ("crates/drill/out/drill", program), ("crates/drill_file_c/out/libdrill_file_c.a", library):
    assert there in script, f"{page.name} does not name {there}"
    script = script.replace(there, here)
done = subprocess.run(["bash", "-euo", "pipefail", "-c", script], stdout=subprocess.PIPE, text=True, cwd=page.parent.parent)
printed = done.stdout.split(END + "\n")
for (command, wanted), there in zip(blocks, printed):
    if there != wanted:
        sys.exit(f"drill: {page.name}: behind\n{command}stands\n{wanted}and this is printed\n{there}")
if done.returncode != 0 or len(printed) != len(blocks) + 1 or not blocks:
    sys.exit(f"drill: {page.name}: its commands end with status {done.returncode}, {len(printed) - 1} of {len(blocks)} run")
