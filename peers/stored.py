"""The stored cases: files that the peers wrote, listed in stored.txt."""

from drawings import bits


def store(folder, peers):
    """Runs the command of each case anew, and writes its file and the version of the program. A case that says `ring`, and
    no more, gets the ring that the program itself reads in the file."""
    known = {peer.name: peer for peer in peers}
    head, *cases = (folder / "stored.txt").read_text().rstrip("\n").split("\n\n")
    blocks = [head]
    for case in cases:
        name, program, command, says = [line.strip() for line in case.split("\n")]
        peer = known[program.split()[0]]
        [file] = peer.write([command])
        if says == "ring":
            [(numbers, _)] = peer.read([file])
            says = " ".join(["ring", *bits(numbers[:-2])])
        (folder / name).write_bytes(file)
        blocks.append("\n    ".join([name, f"{peer.name} {peer.version}", command, says]))
    (folder / "stored.txt").write_text("\n\n".join(blocks) + "\n")
