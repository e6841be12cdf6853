"""What a package depends on, as a graph: the part that the worlds of packages share.

The file `graph` has a vertex for each package and an edge from it to each package that it depends on; the file `names`
has a line `NUMBER NAME` for each. The rules:
- Packages are numbered from 0 by the order of their names.
- Versions and architectures in what a package depends on are passed over.
- Of alternatives `a | b` the first one counts that is there. A name is there if a package of that name is, or, if
  none is, a package that provides it: then the one with the least name.
- Two packages have one edge at most, and a package has none to itself.
The same records make the same bytes.
"""
import re


def names_in(field):
    """The list of a field's relations, each the list of the names of its alternatives."""
    return [[re.split(r'[\s(:\[<]', word.strip())[0] for word in relation.split('|')] for relation in field.split(',') if relation.strip()]


def write_world(folder, records, comment):
    """Writes `graph` and `names` into a folder; a record is a package, the fields of what it needs, and what it provides."""
    depends, provides = {}, {}
    for package, needed, provided in records:
        depends.setdefault(package, []).extend(relation for field in needed for relation in names_in(field))
        for [name] in names_in(provided):
            provides[name] = min(package, provides.get(name, package))
    number = {package: at for at, package in enumerate(sorted(depends))}

    lines = [f'# {comment}\n']
    for package, at in number.items():
        needed = set()
        for relation in depends[package]:
            found = (name if name in number else provides.get(name) for name in relation)
            needed.update([number[name] for name in found if name][:1])
        lines.append(f'{at}\n')
        lines.extend(f'{at} {to}\n' for to in sorted(needed - {at}))
    (folder / 'graph').write_text(''.join(lines))
    (folder / 'names').write_text(''.join(f'{at} {package}\n' for package, at in number.items()))
