"""The experiments that compare definitions with an engine."""

import random as chances
import re

from evaluator import Made, NotEvaluated
from random_entities import random_entities
from random_modules import PAGE, RandomModule, mutated
from random_types import exporter, importer, random_groups, random_pair
from spelling import STANDARD

BASE = [(place * 7 + 3) % 251 for place in range(PAGE)]
HOST = [Made("Ref", (Made("Func", (100 + place,)),)) for place in range(8)]
# So many modules are asked of the engine at once.
BATCH = 250


def shown(item):
    """What stands at a place, as the engine's script tells it."""
    if isinstance(item, int):
        return item
    return -1 if item.parts[0].name == "Null" else item.parts[0].parts[0]


def places_of(phase, place, size, random):
    """The places that are compared: those of short pieces and around the ends of all, the ends of
    the object, and some by chance."""
    near = set(range(min(size, 20))) | set(range(max(0, size - 12), size)) | {random.randrange(size) for _ in range(20 if size else 0)}
    for piece in phase["pieces"]:
        first, length = piece["offset"], len(piece["items"])
        if piece["object"] != place:
            continue
        inside = range(length) if length < 40 else [*range(12), *range(length - 12, length), *(random.randrange(length) for _ in range(12))]
        near.update(one for one in [first - 2, first - 1, first + length, first + length + 1, *(first + part for part in inside)] if 0 <= one < size)
    return sorted(near)


def foretold(definitions, made, module, random):
    """What the definitions say of an instance: its globals, whether it traps, and what stands where."""
    find, count = definitions.find, len(made.imported)
    numbers = [Made(one["kind"].upper(), (int(one["number"]),)) for one in made.imports[:2]]
    values = find("init_plan", "globals_of")(module, numbers)
    if made.kind == "memory":
        phase = find("replay_spec", "module_phase")(values, find("init_plan", "fields_of")(module), [BASE] * count, module)
    else:
        phase = find("init_plan", "module_elements_phase")(values, [HOST] * count, module)
    content, objects = find("replay_spec", "content_of"), []
    for place in range(len(made.wide)):
        size = phase["sizes"](place)
        at = places_of(phase, place, size, random)
        objects.append({"name": f"{made.kind[0]}{place}", "size": size, "at": at, "items": [shown(content(phase, place, one)) for one in at]})
    trapped = find("replay_spec", "trap_of")(phase).name == "Some"
    return {"globals": [str(value.parts[0]) for value in values], "trapped": trapped, "objects": objects}


def difference(wanted, found, outcome):
    """What differs between what definitions foretell and what an instance holds, or None."""
    if not found["taken"]:
        return f"the engine refuses: {found['why']}"
    if found["trapped"] != wanted["trapped"]:
        return f"the engine {'traps' if found['trapped'] else 'does not trap'}"
    if not found["trapped"] and found["globals"] != wanted["globals"]:
        return f"globals {wanted['globals']}, in the engine {found['globals']}"
    for one, held in zip(wanted["objects"], found["objects"]):
        if held is None:
            continue
        outcome.note("objects")
        if held["size"] != one["size"]:
            return f"{one['name']} has size {one['size']}, in the engine {held['size']}"
        for place, item, other in zip(one["at"], one["items"], held["at"]):
            if item != other:
                return f"at {place} of {one['name']} stands {item}, in the engine {other}"
    return None


def check_modules(definitions, engine, count, seed, outcome):
    """Random modules: what definitions say that an instance holds, and what the engine's instance holds."""
    random = chances.Random(seed)
    for begin in range(0, count, BATCH):
        batch = []
        for _ in range(min(BATCH, count - begin)):
            made = RandomModule(random, engine.has)
            data = made.spell()
            module, verdict = definitions.verdict(data)
            batch.append((made, data, verdict, foretold(definitions, made, module, random) if module is not None else None))
        asked = [{"start": data.hex(), "imports": made.imports, "places": wanted["objects"] if wanted else []} for made, data, _, wanted in batch]
        for (_, data, verdict, wanted), found in zip(batch, engine.ask(asked, newer=True)):
            if wanted is None:
                outcome.count(not found["taken"], data, f"{verdict}, and the engine takes it")
                continue
            why = difference(wanted, found, outcome)
            outcome.note("traps", int(wanted["trapped"]))
            outcome.count(why is None, data, why)


def check_types(definitions, engine, count, seed, outcome):
    """Pairs of types of two modules: equal exactly where a mutable global of the one links as one
    of the other."""
    types, random = engine.types(), chances.Random(seed)
    if types is None:
        outcome.leave_out("all, since the engine has no references to types")
        return
    same_type, test = (definitions.find("type_spec", name) for name in ("SameType", "same_type"))
    pairs, asked = [], []
    while len(pairs) < count:
        (one, origins), (other, other_origins) = random_groups(random), random_groups(random)
        spelled = exporter(STANDARD, one), importer(STANDARD, other, 0)
        verdicts = [definitions.verdict(data) for data in spelled]
        if any(module is None for module, _ in verdicts):
            outcome.count(False, b"".join(spelled), f"two modules, {verdicts[0][1]} and {verdicts[1][1]}")
            return
        placed = [definitions.find("form_types", "placed_groups")(module) for module, _ in verdicts]
        for _ in range(min(6, count - len(pairs))):
            places = random_pair(random, origins, other_origins)
            equal = same_type(*placed, *places) is True
            pairs.append((equal, test(*placed, *places) is True, exporter(STANDARD, one) + importer(STANDARD, other, places[1])))
            asked.append({"exporter": exporter(types, one).hex(), "importer": importer(types, other, places[1]).hex(), "index": places[0]})
    for (equal, tested, data), found in zip(pairs, engine.ask(asked, newer=True)):
        linked = found.get("linked")
        outcome.note("equal", int(equal))
        why = f"equal {equal}, by the test {tested}, linked {linked}: {found.get('why')}"
        outcome.count(found["taken"] and equal == tested == linked, data, why)


def check_imports(definitions, engine, count, seed, outcome):
    """What one module gives and another wants: it matches exactly where the engine links the two."""
    random, matches = chances.Random(seed), definitions.find("import_match", "Matches")
    pairs = [random_entities(random, engine.has_plainly) for _ in range(count)]
    asked = [{"exporter": have.exporter().hex(), "importer": want.importer().hex(), "index": 0} for have, want in pairs]
    for (have, want), found in zip(pairs, engine.ask(asked)):
        same = matches(have.seen, want.seen) is True
        outcome.note("match", int(same))
        data = have.exporter() + want.importer()
        why = f"{have.seen} for {want.seen}: matches {same}, linked {found.get('linked')}: {found.get('why')}"
        outcome.count(found["taken"] and same == found["linked"], data, why)


def compare_takers(definitions, engine, modules, outcome):
    """Modules of which none may be refused by the definitions and taken by the engine; why the
    engine refuses what they take is told."""
    answers = engine.ask([{"take": data.hex()} for _, data in modules])
    for (label, data), found in zip(modules, answers):
        try:
            verdict = definitions.verdict(data)[1]
        except (NotEvaluated, MemoryError) as error:
            outcome.count(False, data, f"{label} is not evaluated: {error}")
            continue
        taken = verdict == "planned"
        if taken == found["taken"]:
            outcome.note("taken by both" if taken else "refused by both")
        elif taken:
            outcome.reason(re.sub(r"\d+", "N", re.sub(r"WebAssembly.Module\(\): |@\+\d+", "", found["why"])).strip()[:90])
        outcome.count(taken or not found["taken"], data, f"{label}: {verdict}, and the engine takes it")


def check_mutants(definitions, engine, count, seed, outcome):
    random, mutants = chances.Random(seed), []
    while len(mutants) < count:
        with_types = engine.has_plainly["standard types"] and random.random() < 0.4
        data = exporter(STANDARD, random_groups(random)[0]) if with_types else RandomModule(random, engine.has_plainly).spell()
        kept = data.find(b"\x0a\x0d\x04")
        mutants += [(f"mutant {len(mutants) + place}", mutated(random, data, kept)) for place in range(6)]
    for begin in range(0, count, BATCH):
        compare_takers(definitions, engine, mutants[begin : min(count, begin + BATCH)], outcome)


def check_folder(definitions, engine, folder, outcome):
    files = sorted(folder.rglob("*.wasm"))
    for begin in range(0, len(files), BATCH):
        compare_takers(definitions, engine, [(str(path), path.read_bytes()) for path in files[begin : begin + BATCH]], outcome)
