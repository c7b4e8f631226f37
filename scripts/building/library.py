"""The library for C as one module, and as an archive.

`rt try` compiles programs alone, and of them what `main` reaches. So a copy of the crate is made a program that calls
each function that the library exports; in its module these functions are then called by their names, and `main` is left out.
"""
import re
import shutil

from .copies import take
from .kit import ROOT, Failure, done
from .module import compile_module, write_module
from .reached import Module

CRATE = "fancy_host"
# What a call of the library is handed, by the type of its parameter: the calls are made to be compiled, not to be run.
GIVEN = {
    "Global": "alloc",
    "&[u8]": '"a".as_bytes()',
    "&mut [u8]": "&mut text",
    "&mut [usize]": "&mut spans",
    "&[usize]": "&spans",
    "&FancyOptions": "&options",
    "&FancyProgram": "&program",
    "&mut FancyProgram": "&mut program",
    "&FancyOutcome": "&outcome",
    "&mut FancyCursor": "&mut cursor",
    "&FancyScanner": "&scanner",
    "&mut FancyScanner": "&mut scanner",
    "&mut usize": "&mut pos",
    "usize": "1",
    "u64": "1",
    "bool": "false",
    "u32": "1",
}
CALL_ALL = """
pub fn call_all(alloc: Global) {
    let options = fancy_default_options();
    let mut program = FancyProgram::empty(alloc);
    let mut copy = FancyProgram::empty(alloc);
    let mut text = [0u8; 8];
    let mut spans = [0usize; 8];
    let mut cursor = FancyCursor { pos: 0, last: 0, has_last: false };
    let mut scanner = FancyScanner::empty(alloc);
    let mut pos = 0;
    let outcome = fancy_is_match(alloc, &mut program, "a".as_bytes(), &options);
    if outcome.count == 77 {
CALLS
    }
    fancy_free(alloc, &mut program);
    fancy_free(alloc, &mut copy);
    fancy_scanner_free(alloc, &mut scanner);
}
"""
MAIN = """
fn main(rt: HostRuntime) {
    call_all(rt.alloc());
}
"""


def exported_calls(source):
    """The name and the types of the parameters of each function that the library exports."""
    for name, parameters in re.findall(r'extern "C" fn (\w+)\(([^)]*)\)', source):
        yield name, [it.split(":", 1)[1].strip() for it in parameters.split(",") if it.strip()]


def calls(source):
    """Lines that call each function that the library exports."""
    for name, kinds in exported_calls(source):
        unknown = [it for it in kinds if it not in GIVEN]
        if unknown:
            raise Failure(f"{name} takes a {unknown[0]}: give scripts/building/library.py an example of one")
        given = [GIVEN[it] for it in kinds]
        if given.count("&mut program") == 2:
            given[given.index("&mut program")] = "&mut copy"
        yield f"        let _ = {name}({', '.join(given)});"


def names_in(source):
    return {name for name, _ in exported_calls(source)}


def with_calls(source):
    """The library with a function that calls all that it exports."""
    return source + CALL_ALL.replace("CALLS", "\n".join(calls(source)))


def copy_as_program(folder):
    """Copies the library and what is below it, as a program. Returns its folder and the names that it exports."""
    copy = folder / "repository"
    copy.mkdir()
    take(CRATE, copy, ("src", "specs"))
    shutil.copy(ROOT / "HANDLES", copy / "HANDLES")
    library = copy / "crates" / CRATE / "src/lib.rt"
    source = library.read_text()
    library.unlink()
    (library.parent / "main.rt").write_text(with_calls(source) + MAIN)
    return library.parent.parent, names_in(source)


def exported(lines, names):
    """The lines of a module, in which a program in C can call the functions by their names."""
    named = re.compile(rf'@"{CRATE}::({"|".join(sorted(names))})"')
    for line in lines:
        if f'@"{CRATE}::' in line:
            line = named.sub(r"@\1", line)
            if re.match(r"define internal [^@]*@fancy_\w+\(", line):
                line = line.replace("define internal ", "define ", 1)
        yield line


def write_library_module(kit, folder, how):
    """Writes the module of the library. Returns its file, and the words for clang."""
    crate, names = copy_as_program(folder)
    module, words = write_module(kit, crate, folder, how)
    shutil.rmtree(folder / "repository")
    with open(module, encoding="utf-8") as lines:
        Module(exported(lines, names)).write(folder / "library.ll", names)
    return folder / "library.ll", words


def write_archive(kit, module, words, folder):
    """Compiles the module of the library into an archive."""
    compile_module(kit, module, words, folder / "library.o", "-fPIC")
    archive = folder / f"lib{CRATE}.a"
    done([kit / "toolchain/bin/llvm-ar", "rcs", archive, folder / "library.o"])
    return archive
