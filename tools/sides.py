"""The two sides of a comparison: the unchanged Rust, and the program under test."""

import os
import pathlib
import shlex
import shutil
import subprocess

import stream
import tables

ROOT = pathlib.Path(__file__).resolve().parent.parent


def source():
    """The folder of the unchanged Rust; it may not be there."""
    return pathlib.Path(os.environ.get("SOURCE") or ROOT.parent / "shared/docs/src").resolve()


def text_missing():
    """Why the Rust's text can't be read here, or None. A SOURCE that was named and isn't there ends the program."""
    if (source() / "src/av2/itx.rs").is_file():
        return None
    if os.environ.get("SOURCE"):
        raise SystemExit(f"SOURCE is {os.environ['SOURCE']}, and no src/av2/itx.rs is in it")
    return f"no Rust source in {os.path.relpath(source(), ROOT)}"


def oracle_missing():
    """Why the Rust can't be run here, or None."""
    return text_missing() or (None if shutil.which("rustc") else "no rustc")


def build_oracle():
    """The command of the Rust's side, built afresh."""
    program = ROOT / "target/oracle/oracle"
    environment = dict(os.environ, SOURCE=str(source()))
    subprocess.run([ROOT / "tools/oracle/build", program], env=environment, check=True)
    return [str(program)]


def program(name):
    """The command of a program under test: the variable of its name in capitals, or the one in its crate's out/ by tools/run.

    Where it isn't there, this program ends and says what to build.
    """
    command = shlex.split(os.environ.get(name.upper(), ""))
    if command:
        if not (shutil.which(command[0]) or (ROOT / command[0]).is_file()):
            raise SystemExit(f"{name.upper()} is {shlex.join(command)}, and there is no {command[0]}")
        return command
    if not (ROOT / "crates" / name / "out" / name).is_file():
        raise SystemExit(f"no crates/{name}/out/{name}: build it with rt run in crates/{name}")
    return [str(ROOT / "tools/run"), name]


def run(command, data):
    """What a command writes for a stream, and how it ended."""
    done = subprocess.run(command, input=data, stdout=subprocess.PIPE, cwd=ROOT)
    return done.stdout, done.returncode


# The calls that the Rust has, each with the number under which tools/oracle has it. It clamps coefficients: so its answers
# are those of the clamping calls, and of the others on what they accept. It reads them column by column. It has no plane of
# bytes: there it answers the wide call on the same numbers. Its lanes are four: with them it answers the calls of eight, and
# with its scalar passes the fast ones.
RUST_CALLS = {1: 1, 2: 2, 3: 3, 4: 4, 5: 5, 6: 6, 14: 1, 15: 2, 16: 3, 17: 4, 10: 1, 11: 2, 12: 3, 13: 4}
RUST_CALLS |= {18: 3, 19: 4, 20: 3, 21: 4, 24: 2, 25: 2, 26: 4, 27: 4, 36: 1, 37: 1, 38: 3, 39: 3, 40: 3, 41: 3}


def in_columns(size, coefficients):
    """Coefficients in row order, turned: row r, column x is number r * sw + x, and becomes number r + x * sh."""
    sw, sh = (min(side, 32) for side in tables.SIZES[size][:2])
    return [coefficients[r * sw + x] for x in range(sw) for r in range(sh)]


def for_rust(case):
    """A case of the Rust's own with the same answer, given that it is accepted."""
    coefficients, *others = case.slices
    if case.call in stream.ROWS:
        coefficients = in_columns(case.arguments[1], coefficients)
    return stream.Case(RUST_CALLS[case.call], case.arguments, [coefficients, *others])


def answers(command, cases):
    """The Rust's answer to each of the cases."""
    data, status = run(command, b"".join(stream.encode(for_rust(case)) for case in cases))
    if status != 0:
        raise SystemExit(f"the Rust's side ended with status {status}")
    return list(stream.answers(data, cases))


def with_rust(cases, answered):
    """The model's answers with the Rust's in their places, and how many of these differ from the model's."""
    places = [i for i, case in enumerate(cases) if case.call in RUST_CALLS and answered[i][:8] == bytes(8)]
    rust = answers(build_oracle(), [cases[i] for i in places])
    differences = 0
    for i, answer in zip(places, rust):
        if answer != answered[i]:
            differences += 1
            print(f"case {i}: {stream.describe(cases[i])}: {stream.describe_difference(cases[i], answer, answered[i])}")
        answered[i] = answer
    print(f"{len(places)} answers from the Rust, {differences} differ from the model's")
    return answered, differences


def write(folder, files):
    """Writes a folder's files, by name and content."""
    for name, data in files.items():
        path = pathlib.Path(folder) / name
        path.parent.mkdir(parents=True, exist_ok=True)
        path.write_bytes(data)
        print(f"{path}: {len(data)} bytes")
