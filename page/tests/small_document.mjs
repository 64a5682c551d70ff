// A document that is just enough to run the page's script in node: elements, attributes, listeners
// and simple selectors. It draws nothing, so what is seen is checked in a browser alone; and its
// worker answers in the same thread.
import vm from "node:vm";

const VOID = ["meta", "input", "link", "br"];

class SmallElement {
  static focused = null;

  constructor(name) {
    Object.assign(this, { localName: name, attributes: new Map(), childNodes: [], parentElement: null, style: {}, dataset: {}, open: false, disabled: false });
    this.value = "";
  }

  setAttribute(key, value) {
    this.attributes.set(key, String(value));
    if (key.startsWith("data-")) this.dataset[key.slice(5)] = String(value);
    if (["name", "value", "type", "title"].includes(key)) this[key] = String(value);
    if (["disabled", "open", "checked"].includes(key)) this[key] = true;
  }

  getAttribute = key => this.attributes.get(key) ?? null;

  get id() { return this.attributes.get("id") ?? ""; }
  get hidden() { return this.attributes.has("hidden"); }
  set hidden(is) { is ? this.attributes.set("hidden", "") : this.attributes.delete("hidden"); }
  get children() { return this.childNodes.filter(it => it instanceof SmallElement); }
  get elements() { return Object.fromEntries([...this.all()].filter(it => it.name !== undefined).map(it => [it.name, it])); }
  get textContent() { return this.childNodes.map(it => (it instanceof SmallElement ? it.textContent : it)).join(""); }
  set textContent(words) { this.replaceChildren(words); }
  get classList() {
    const names = () => (this.attributes.get("class") ?? "").split(" ").filter(Boolean), set = list => this.attributes.set("class", list.join(" "));
    const toggle = (name, is) => set([...names().filter(it => it !== name), ...(is ? [name] : [])]);
    return { add: name => toggle(name, true), remove: name => toggle(name, false), toggle, contains: name => names().includes(name) };
  }

  append(...nodes) {
    for (const node of nodes) {
      if (node instanceof SmallElement) node.remove(), (node.parentElement = this);
      this.childNodes.push(node instanceof SmallElement ? node : String(node));
    }
  }

  replaceChildren(...nodes) {
    for (const it of this.children) it.parentElement = null;
    this.childNodes = [];
    this.append(...nodes);
  }

  remove() {
    if (this.parentElement) this.parentElement.childNodes = this.parentElement.childNodes.filter(it => it !== this);
    this.parentElement = null;
  }

  *all() {
    for (const child of this.children) yield child, yield* child.all();
  }

  // Selectors are names, ids, classes and attributes, one behind the other, and parents before a space.
  matches(selector) {
    return selector.split(/,\s*/).some(one => {
      const parts = one.split(/\s+/), isIt = (it, part) => (part.match(/[#.]?[\w-]+|\[[^\]]*\]/g) ?? []).every(word => hasWord(it, word));
      if (!isIt(this, parts.pop())) return false;
      for (let it = this.parentElement; parts.length && it; it = it.parentElement) if (isIt(it, parts.at(-1))) parts.pop();
      return parts.length === 0;
    });
  }

  querySelectorAll = selector => [...this.all()].filter(it => it.matches(selector));
  querySelector = selector => this.querySelectorAll(selector)[0] ?? null;
  closest(selector) { return this.matches(selector) ? this : this.parentElement?.closest(selector) ?? null; }
  contains(it) { return it === this || [...this.all()].includes(it); }
  focus() { SmallElement.focused = this; }
  scrollIntoView() {}
  addEventListener() {}
  showModal() { this.open = true; }
  close() { this.open = false; }
  click() { return this.onclick?.({ target: this, preventDefault() {} }); }
}

function hasWord(it, word) {
  if (word.startsWith("#")) return it.id === word.slice(1);
  if (word.startsWith(".")) return it.classList.contains(word.slice(1));
  const [, key, value] = /^\[([\w-]+)(?:=["']?(.*?)["']?)?\]$/.exec(word) ?? [];
  if (key) return value === undefined ? it.attributes.has(key) : it.attributes.get(key) === value;
  return it.localName === word;
}

// The elements of a page, whose tags are well formed.
function parsed(text) {
  const root = new SmallElement("html"), open = [root];
  for (const [, comment, close, name, words, more] of text.matchAll(/<!(.*?)>|<\/(\w+)>|<(\w+)([^>]*)>|([^<]+)/g)) {
    if (comment !== undefined) continue;
    if (close) open.splice(open.findLastIndex(it => it.localName === close));
    else if (more !== undefined) open.at(-1).append(more);
    else {
      const it = new SmallElement(name);
      for (const [, key, , value = ""] of words.matchAll(/([\w-]+)(="([^"]*)")?/g)) it.setAttribute(key, value);
      open.at(-1).append(it);
      if (!VOID.includes(name)) open.push(it);
    }
  }
  return root;
}

// The page's script, running: its names can be asked for by `value`. `compile` compiles the planner's module.
export function openedPage(page, compile, { isNarrow = false, stored = {} } = {}) {
  const scripts = {}, text = page.replace(/<style>[^]*?<\/style>/, "").replace(/<script([^>]*)>([^]*?)<\/script>/g, (_, words, inside) => {
    scripts[/id="([\w-]+)"/.exec(words)?.[1] ?? "page"] = inside;
    return "";
  });
  const root = parsed(text), byId = id => [...root.all()].find(it => it.id === id) ?? holder(id), holders = new Map();
  const holder = id => scripts[id] === undefined ? null : holders.get(id) ?? holders.set(id, { textContent: scripts[id] }).get(id);
  const document = {
    getElementById: byId, createElement: name => new SmallElement(name), createElementNS: (_, name) => new SmallElement(name), body: root, documentElement: root,
    querySelector: root.querySelector, querySelectorAll: root.querySelectorAll, get activeElement() { return SmallElement.focused; },
  };
  const shared = { console, performance, setTimeout, clearTimeout, setInterval: () => 0, clearInterval() {}, TextDecoder, TextEncoder, Blob, atob, URLSearchParams, Uint8Array };
  const worker = class {
    constructor() {
      const inside = vm.createContext({
        ...shared, WebAssembly: { compile, Instance: WebAssembly.Instance }, postMessage: data => setTimeout(() => this.onmessage({ data }), 0),
        addEventListener: (_, listen) => (this.listen = listen),
      });
      vm.runInContext(scripts["worker-script"], inside);
    }
    postMessage(data) { setTimeout(() => this.listen({ data }), 0); }
    terminate() {}
  };
  const window = vm.createContext({
    ...shared, document, HTMLTableCellElement: class {}, Worker: worker, URL: { createObjectURL: () => "", revokeObjectURL() {} }, navigator: { clipboard: {} },
    location: { hash: "", href: "" }, history: { replaceState() {} }, matchMedia: () => ({ matches: isNarrow }), addEventListener() {},
    sessionStorage: { getItem: key => stored[key] ?? null, setItem: (key, value) => (stored[key] = value), removeItem: key => delete stored[key] },
  });
  vm.runInContext(scripts.page, window);
  return { root, byId, value: words => vm.runInContext(words, window) };
}
