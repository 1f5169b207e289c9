"""A program that nothing is proved of, kept as a file."""

import contextlib
import os
import subprocess
import sys

import kit

OPTIMISED, CHECKING = "optimised", "with the sanitizer, since it could not be optimised"

# Leaves a copy of the program that it links. The archive that is linked whole is the sanitizer.
LINKER = """#!/bin/sh
made= before= whole={keeps}
for word do
    shift
    if [ "$before" = -o ]; then made=$word; fi
    if [ "$before" != --whole-archive ] || [ "$whole" = yes ]; then set -- "$@" "$word"; fi
    before=$word
done
"{kit}/toolchain/bin/ld.lld" "$@" || exit
cp "$made" "{folder}/program"
"""

# Makes the code that LLVM optimises, without the sanitizer.
COMPILER = """#!/bin/sh
: > "{folder}/compiles"
for word do
    shift
    case "$word" in
        -fsanitize=address) ;;
        -O0) set -- "$@" -O1 ;;
        *) set -- "$@" "$word" ;;
    esac
done
exec "{kit}/toolchain/bin/clang" "$@"
"""


def make_kit(folder, form):
    """The `rt` of a kit whose linker leaves its program as FOLDER/program."""
    front_end, kit_folder = kit.copy_front_end(f"{folder}/kit"), kit.kit_folder()
    os.remove(f"{folder}/kit/toolchain")
    kit.link_all(f"{kit_folder}/toolchain", f"{folder}/kit/toolchain", but=("bin",))
    kit.link_all(f"{kit_folder}/toolchain/bin", f"{folder}/kit/toolchain/bin")
    keeps = "no" if form == OPTIMISED else "yes"
    kit.write_script(f"{folder}/kit/toolchain/bin/ld.lld", LINKER.format(kit=kit_folder, folder=folder, keeps=keeps))
    if form == OPTIMISED:
        kit.write_script(f"{folder}/kit/toolchain/bin/clang", COMPILER.format(kit=kit_folder, folder=folder))
    return front_end


@contextlib.contextmanager
def started(*words, **how):
    """A child that is ended if it has not ended by itself."""
    child = subprocess.Popen(words, stdin=subprocess.DEVNULL, **how)
    try:
        yield child
    finally:
        if child.poll() is None:
            child.terminate()
            child.wait()


def compile_as(form, folder, crate, words):
    """What `rt try` says. It leaves FOLDER/program, if all went well."""
    os.mkdir(folder)
    words = [make_kit(folder, form), "try", "--", *words]
    with open(f"{folder}/said", "w+", encoding="utf-8", errors="replace") as said:
        with started(*words, cwd=crate, stdout=said, stderr=said) as child:
            child.wait()
        said.seek(0)
        return said.read()


def made(crate, folder, words, works):
    """The program of the crate in this folder, made in another one, and its form: the first that works. `rt try` runs it with these words. If
    the sources are refused, or no form works, this ends what called it, and says why."""
    for number, form in enumerate((OPTIMISED, CHECKING)):
        said = compile_as(form, f"{folder}/{number}", crate, words)
        program = f"{folder}/{number}/program"
        if works(program):
            return program, form
        if not os.path.exists(f"{folder}/{number}/compiles"):
            # The sources were refused, as they would be in any form.
            break
    sys.exit(f"{said}\n{os.path.basename(crate)}: the program does not compile")
