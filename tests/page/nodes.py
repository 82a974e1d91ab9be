"""What the tests in node share: runs of the page's scripts, and what is found in what they draw."""
import base64
import json
import os
import re
import shutil
import subprocess
from xml.etree import ElementTree

from shared import HERE, Page


PROBE = "process.exit(WebAssembly.validate(new Uint8Array([0, 97, 115, 109, 1, 0, 0, 0, 5, 3, 1, 4, 1])) ? 0 : 1)"
HOW = "a node with 64-bit WebAssembly memory is missing (node 18 or later; Debian: nodejs)"


def node_words():
    """How node is called so that it has 64-bit memory, or None."""
    for more in ([], ["--experimental-wasm-memory64"]):
        words = ["node", *more]
        if shutil.which("node") and subprocess.run([*words, "-e", PROBE], capture_output=True).returncode == 0:
            return words
    return None


NODE = node_words()


def in_node(tasks):
    """The answers to tasks, whose bytes go in base64."""
    given = [[base64.b64encode(word).decode() if isinstance(word, bytes) else word for word in task] for task in tasks]
    words = [*NODE, os.path.join(HERE, "in_node.cjs"), Page.folder]
    done = subprocess.run(words, input=json.dumps(given).encode(), capture_output=True, timeout=600)
    if done.returncode:
        raise AssertionError(done.stderr.decode()[-2000:])
    return json.loads(done.stdout)


def on_page(script, *words):
    """What a script returns that uses the page over stand-ins for a browser; `given` are the words."""
    call = [*NODE, os.path.join(HERE, "page_in_node.cjs"), Page.folder]
    done = subprocess.run(call, input=f"const given = {json.dumps(words)}; {script}".encode(), capture_output=True, timeout=600)
    if done.returncode:
        raise AssertionError(done.stderr.decode()[-2000:])
    return json.loads(done.stdout)



# An ownship that flies northeast and climbs, one aircraft ahead and one on its left, whose report is 15 seconds old.
TURNED = b"format 2\nmoment 0\nown 500 -700 10000 40 3000 300\ntraffic A 4500 4000 10200 -900 -1400 600 0\ntraffic B -2500 1500 9000 1200 300 -700 15\nend\n"


def xml_of(text):
    return ElementTree.fromstring(f"<svg>{text}</svg>")


def numbers_in(text):
    return [float(number) for number in re.findall(r"-?[0-9.]+", text)]


def boxes_of(path):
    """The boxes of a path of such: left, top, width and height."""
    return [numbers_in(box)[:4] for box in path.get("d").split("z")[:-1]]


STATES = "daa.stateLines([page.current])"
OPEN = """const open = async (...files) => {
  await fire(screen, "drop", { dataTransfer: { types: ["Files"], files: files.map(([name, text]) => ({ name, arrayBuffer: async () => daa.bytesOf(text).buffer })) } });
  await settle();
};"""
EDIT = """const edit = async (text) => {
  $("toml").value = text;
  await fire($("toml"), "input");
  await settle();
};"""
# An aircraft out of every range, and many that are near.
FAR = "moment 0\nown 0 0 10000 0 3600 0\ntraffic FAR 100000 100000 10000 0 0 0\n" + "".join(
    f"traffic {name} {1000 * place} 3000 10000 0 -100 0\n" for place, name in enumerate("ABCDEFG", 1)) + "end\n"
