"""The Rattle kit with a compiler in the place of its clang that keeps the LLVM module which it is given, and calls clang."""
import os
import subprocess

HOME = os.path.dirname(subprocess.run(["rt", "doc"], stdout=subprocess.PIPE, text=True, check=True).stdout.strip())
CLANG = HOME + "/toolchain/bin/clang"


def toolchain(room):
    """The kit's toolchain as it is called here; room/module.bc will be the module of what is compiled for speed, as libraries and programs are."""
    own = room + "/toolchain"
    os.makedirs(own + "/bin")
    os.symlink(HOME + "/toolchain/lib", own + "/lib")
    for name in os.listdir(HOME + "/toolchain/bin"):
        if name != "clang":
            os.symlink("%s/toolchain/bin/%s" % (HOME, name), "%s/bin/%s" % (own, name))
    with open(own + "/bin/clang", "w") as f:
        f.write('#!/bin/sh\ncase " $* " in *" -O3 "*) cp module.bc "%s/module.bc" ;; esac\nexec "%s" "$@"\n' % (room, CLANG))
    os.chmod(own + "/bin/clang", 0o755)
    return own


def text(room):
    """The module kept, as text, before any pass of LLVM's."""
    words = [CLANG, "--target=x86_64-unknown-linux-gnu", "-S", "-emit-llvm", "-Xclang", "-disable-llvm-passes", "-x", "ir", room + "/module.bc", "-o", "-"]
    return subprocess.run(words, stdout=subprocess.PIPE, text=True, check=True).stdout
