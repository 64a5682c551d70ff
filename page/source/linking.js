// What the imports of one module are given by the exports of another. The planner answers, import
// by import; here its answers are only counted and shown with the names and types of both.

const OFFERED = 1000;

class Linking {
  // `name` is the module's name under which the exports stand: where it is null, the one that the
  // most imports have. The planner's memory holds both plans, so the answers are copied and it
  // goes.
  constructor(planner, exporter, importer, name) {
    Object.assign(this, { exporter, importer, numbers: planner.layout.numbers });
    this.modules = importer.externals?.modules() ?? [];
    this.name = name ?? this.modules[0]?.name ?? "";
    const { status, record } = planner.link(exporter.module, importer.module, this.name, importer.options);
    this.status = importer.nameOf(["planned", "refused", "wrong_options", "no_memory"], status);
    this.refused = this.status === "refused" ? { name: (record.refused === 1 ? exporter : importer).name, ...importer.causeOf(record) } : null;
    this.take(record.answers);
  }

  take(answers) {
    const answer = answers.column("answer"), detail = answers.column("detail"), { given, mismatch } = this.numbers;
    this.answers = Uint8Array.from({ length: answers.length }, (_, i) => answer(i));
    this.details = Uint32Array.from({ length: answers.length }, (_, i) => detail(i));
    this.met = this.answers.reduce((met, it) => met + (it === given), 0);
    // The text of each rule that is broken.
    this.rules = new Map();
    this.answers.forEach((it, i) => {
      if (it === mismatch && !this.rules.has(this.details[i])) this.rules.set(this.details[i], answers.get(i).line.text);
    });
  }

  summary() {
    const { status, refused, name, met, numbers } = this, first = this.answers.findIndex(it => it !== numbers.given);
    return {
      status, refused, name, met, imports: this.answers.length, first: first < 0 ? null : this.row(first), modules: this.modules.slice(0, OFFERED), allModules: this.modules.length,
    };
  }

  rows(from, to) {
    return Array.from({ length: Math.max(0, Math.min(to, this.answers.length) - from) }, (_, i) => this.row(from + i));
  }

  row(number) {
    const { importer, exporter } = this, it = importer.externals.import(number), detail = this.details[number];
    const answer = importer.nameOf(["given", "missing", "mismatch"], this.answers[number]);
    const found = { given: () => detail, missing: () => null, mismatch: () => exporter.externals.exportNamed(it.name) }[answer]();
    const rule = answer === "mismatch" ? this.rules.get(detail) : null, given = found === null ? null : exporter.externals.export(found);
    return { ...it, from: shortened(it.from), name: shortened(it.name), answer, rule, given: given && { ...given, name: shortened(given.name) } };
  }
}
