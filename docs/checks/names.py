"""No public name of specs/ stands in two modules: a reader who looks for it finds one."""

from checks.tree import CRATES, public_names


def faults():
    places = {}
    for module in sorted(CRATES.glob("*/specs/*.antt")):
        for name in set(public_names(module)):
            places.setdefault(name, []).append(str(module.relative_to(CRATES).with_suffix("")))
    for name, modules in sorted(places.items()):
        if len(modules) > 1:
            yield f"{name} stands in {' and '.join(modules)}"
