"""The words of `rattle check` for one crate, over proved libraries and stubs of the crates below it."""
from .crates import below, listed
from .kit import ROOT, kit_folder
from .stubs import digest, make_stub, proved_libraries


def begun(root, crate):
    main = "src/main.rt" if (root / f"crates/{crate}/src/main.rt").exists() else "src/lib.rt"
    yield from ("check", "--crate-name", crate, main, "--links", f"{crate}=")


def over_others(crate, checkouts, kept, root=ROOT):
    """The words, and the root file of each stub. Stubs are kept in the folder `kept`."""
    kit, names, known = kit_folder(), listed(root), {}
    proved = proved_libraries(crate, names, checkouts, root)
    stubs = {it: make_stub(it, kept / f"{it}-{digest(it, names, root, known)}", root)
             for it in below(crate, names) if it not in proved}
    return list(words_of(crate, kit, names, proved, stubs, root)), stubs


def words_of(crate, kit, names, proved, stubs, root):
    yield from (kit / "bin/rattle", *begun(root, crate))
    for name in sorted({"std", *names[crate], *(it for stub in stubs for it in names[stub])} - set(stubs)):
        yield from ("--extern", f"{name}={proved.get(name, kit / 'rlibs') / name}.rlib")
    for folder in (kit / "rlibs", *proved.values()):
        yield from ("-L", f"dependency={folder}")
    for name, main in stubs.items():
        yield from ("--lib", f"{name}:{','.join(('std', *names[name]))}={main}")
    yield from ("--antt-project", kit / "rattle/logic/antt-project.json", "--logic-built", kit / "logic_built")
