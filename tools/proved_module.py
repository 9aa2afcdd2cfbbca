"""The LLVM module of the crate exports_c, and the kit's clang that makes machine code of it.

'rt lib' in a static library's folder proves the crate and what it depends on, makes the module, and hands it to the kit's clang.
Here it runs with a kit made of links, in which clang keeps the module. What is kept stands in target/archive, with a fingerprint
of all that it was made from: where nothing has changed since, nothing is done again."""
import hashlib
import os
import platform
import re
import shutil
import subprocess
import tempfile

CRATE = 'exports_c'

TOP = os.path.abspath(os.path.join(os.path.dirname(os.path.abspath(__file__)), '..'))

KEPT = os.path.join(TOP, 'target/archive')

# A helper that two functions call is not inlined by itself, nor one behind several early returns, which count as cold.
INLINED = ['-mllvm', '-inline-threshold=10000', '-mllvm', '-inline-cold-callsite-threshold=10000']

# A loop that fills or copies stays a loop, and does not become a call of memset, memcpy or memmove. Nor does it become several,
# by whether what is read and written overlaps, or by how often it turns: docs/SPEED.md says what each brings.
LOOPS = ['-mllvm', '-disable-loop-idiom-all', '-fno-vectorize', '-fno-unroll-loops']

# On x86-64 two tests stay two jumps, and don't become two numbers, their sum and one jump.
TWO_JUMPS = ['-mllvm', '-x86-br-merging-base-cost=-1']

# As rt lib does it. Among these is that what several paths end with stays in each of them: the cases of a return, which are told
# apart once, are not joined again.
ALWAYS = ['-O3', '-fPIC', '-ffunction-sections', '-fdata-sections', '-mllvm', '-trap-unreachable', '-mllvm',
          '-no-trap-after-noreturn', '-mllvm', '-no-x86-call-frame-opt', '-mllvm', '-disable-machine-licm', '-mllvm',
          '-disable-postra-machine-licm', '-mllvm', '-sink-common-insts=false', '--no-default-config', '-no-canonical-prefixes',
          '-fno-crash-diagnostics', '-Wno-override-module']

# The targets of tools/archive, and the flags that one has beside these. Where no system is below the heap, it keeps off the
# vector registers, and on x86-64 off the memory below the stack's end, which an interrupt overwrites.
TARGETS = {
    'x86_64-unknown-linux-gnu': TWO_JUMPS,
    'aarch64-unknown-linux-gnu': [],
    'x86_64-none-elf': [*TWO_JUMPS, '-mgeneral-regs-only', '-mllvm', '-force-attribute=noredzone'],
    'aarch64-none-elf': ['-mgeneral-regs-only'],
    'riscv64-none-elf': ['-march=rv64imac', '-mabi=lp64'],
}


class Failed(Exception):
    """What went wrong, and what the command said."""


def run(words, **more):
    """Runs a command, and answers what it said."""
    try:
        done = subprocess.run(words, stdin=subprocess.DEVNULL, stdout=subprocess.PIPE, stderr=subprocess.STDOUT, text=True,
                              **more)
    except OSError as why:
        raise Failed(f'{words[0]}: {why.strerror}') from None
    if done.returncode != 0:
        raise Failed(f'{done.stdout}{" ".join(words)}')
    return done.stdout


def home():
    """The kit's folder, at whose top the page stands that is to be read first."""
    return os.path.dirname(run(['rt', 'doc']).strip())


def tool(name):
    """A tool of the kit: clang, llvm-ar."""
    path = os.path.join(home(), 'toolchain/bin', name)
    if not os.path.isfile(path):
        raise Failed(f'the kit has another layout: there is no {path}')
    return path


def kit_that_keeps(work, module):
    """The kit again, by links, with a clang that keeps the module it is given. Its scripts are copied: a script finds the kit from
    where it itself stands."""
    real, kit, clang = home(), os.path.join(work, 'kit'), tool('clang')
    for part, apart in (('', ('bin', 'toolchain')), ('bin', ()), ('toolchain', ('bin',)), ('toolchain/bin', ('clang',))):
        os.makedirs(os.path.join(kit, part), exist_ok=True)
        for name in os.listdir(os.path.join(real, part)):
            there, here = os.path.join(real, part, name), os.path.join(kit, part, name)
            if name in apart:
                continue
            if part == 'bin' and is_script(there):
                shutil.copy(there, here)
            else:
                os.symlink(there, here)
    fake = os.path.join(kit, 'toolchain/bin/clang')
    with open(fake, 'w', encoding='utf-8') as script:
        script.write(f'#!/bin/sh\nfor a in "$@"; do case $a in *.bc) cp "$a" "{module}" ;; esac; done\nexec "{clang}" "$@"\n')
    os.chmod(fake, 0o755)
    return kit


def is_script(path):
    with open(path, 'rb') as text:
        return path.endswith('.py') or text.read(2) == b'#!'


def below(crate):
    """A crate of crates.txt, and all that it depends on."""
    with open(os.path.join(TOP, 'crates.txt'), encoding='utf-8') as text:
        lines = dict(re.findall(r'^(\w+)[^:\n#]*:(.*)$', text.read(), re.M))
    if crate not in lines:
        raise Failed(f'crates.txt has no line for {crate}')
    found, left = set(), [crate]
    while left:
        name = left.pop()
        if name not in found and name in lines:
            found.add(name)
            left.extend(lines[name].split())
    return sorted(found)


def fingerprint():
    """Of the kit, and of all files of the crate and of what it depends on."""
    seen = hashlib.sha256((run(['rt', 'version']) + platform.machine()).encode())
    for crate in below(CRATE):
        for part in ('src', 'specs', 'proofs'):
            for folder, folders, files in os.walk(os.path.join(TOP, 'crates', crate, part)):
                folders.sort()
                for name in sorted(files):
                    path = os.path.join(folder, name)
                    with open(path, 'rb') as text:
                        seen.update(f'{os.path.relpath(path, TOP)} {hashlib.sha256(text.read()).hexdigest()}\n'.encode())
    return seen.hexdigest()


def read(path):
    """What a file has, or nothing."""
    try:
        with open(path, encoding='utf-8') as text:
            return text.read()
    except OSError:
        return ''


def write(path, data):
    """All at once, so that nobody who reads it meanwhile sees a part."""
    os.makedirs(os.path.dirname(path), exist_ok=True)
    with tempfile.NamedTemporaryFile(dir=os.path.dirname(path), delete=False) as new:
        new.write(data)
    os.chmod(new.name, 0o644)
    os.replace(new.name, path)


def proved_module(say):
    """The module's path. What takes long is said."""
    kept, stamp = os.path.join(KEPT, f'{CRATE}.bc'), os.path.join(KEPT, f'{CRATE}.stamp')
    new = fingerprint()
    if os.path.isfile(kept) and read(stamp) == new:
        return kept
    say(f'proving {CRATE} and what it depends on: what rt has proved before is not proved again')
    with tempfile.TemporaryDirectory() as work:
        module, said = os.path.join(work, 'module.bc'), []
        rt_here = os.path.join(kit_that_keeps(work, module), 'bin/rt')
        with subprocess.Popen([rt_here, 'lib'], cwd=os.path.join(TOP, 'crates', CRATE), stdin=subprocess.DEVNULL,
                              stdout=subprocess.PIPE, stderr=subprocess.STDOUT, text=True) as rt:
            for line in rt.stdout:
                said.append(line)
                if line.startswith('rt: chose '):
                    say(f'rt checks {line.split()[-1]}')
        if rt.returncode != 0:
            raise Failed(f'{"".join(said)}rt lib, in crates/{CRATE}')
        if not os.path.isfile(module):
            raise Failed("rt lib handed no module to the kit's clang: looked for an argument *.bc")
        with open(module, 'rb') as data:
            write(kept, data.read())
    write(stamp, new.encode())
    return kept


def compile_module(module, triple, flags, code):
    """An object file for a machine. The module names a processor of the machine that rt compiles for; others ignore it."""
    run([tool('clang'), f'--target={triple}', *ALWAYS, *flags, '-c', '-x', 'ir', module, '-o', code])
