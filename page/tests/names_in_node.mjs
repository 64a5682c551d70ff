// The checks of names that compilers made: each with what it is in the source, from the
// descriptions of the three ways and their examples.

// Of the compiler of Rust, the older way: parts behind their lengths, and a hash.
const OLDER_RUST = {
  _ZN4core3fmt9Formatter9write_str17h0123456789abcdefE: "core::fmt::Formatter::write_str",
  "_ZN71_$LT$Test$u20$$u2b$$u20$$u27$static$u20$as$u20$foo..Bar$LT$Test$GT$$GT$3bar17h930b740aa94f1d3aE": "<Test + 'static as foo::Bar<Test>>::bar",
  "_ZN13test$u20$test4foob17h05af221e174051e9E": "test test::foob",
  "_ZN4core3ops8function6FnOnce9call_once17hd674b1f6a1b0f8e4E": "core::ops::function::FnOnce::call_once",
  "_ZN3std2rt10lang_start28_$u7b$$u7b$closure$u7d$$u7d$17h0f1e2d3c4b5a6978E.llvm.1234567890ABCDEF": "std::rt::lang_start::{{closure}}",
};
// The newer way, with the examples of RFC 2603 and of rustc-demangle.
const NEWER_RUST = {
  _RNvC6_123foo3bar: "123foo::bar",
  _RNvNtCs1234_7mycrate3foo3bar: "mycrate::foo::bar",
  _RNCNCNgCs6DXkGYLi8lr_2cc5spawn00B5_: "cc::spawn::{closure#0}::{closure#0}",
  _RNqCs4fqI2P2rA04_11utf8_identsu30____7hkackfecea1cbdathfdh9hlq6y: "utf8_idents::საჭმელად_გემრიელი_სადილი",
  _RNCINkXs25_NgCsbmNqQUJIY6D_4core5sliceINyB9_4IterhENuNgNoBb_4iter8iterator8Iterator9rpositionNCNgNpB9_6memchr7memrchrs_0E0Bb_:
    "<core::slice::Iter<u8> as core::iter::iterator::Iterator>::rposition::<core::slice::memchr::memrchr::{closure#1}>::{closure#0}",
  _RINbNbCskIICzLVDPPb_5alloc5alloc8box_freeDINbNiB4_5boxed5FnBoxuEp6OutputuEL_ECs1iopQbuBiw2_3std: "alloc::alloc::box_free::<dyn alloc::boxed::FnBox<(), Output = ()>>",
  _RMC0INtC8arrayvec8ArrayVechKj7b_E: "<arrayvec::ArrayVec<u8, 123>>",
};
// Of C++, by the Itanium ABI.
const CPP = {
  _ZN3FooC1Ev: "Foo::Foo()",
  _ZNSt6vectorIiSaIiEE9push_backERKi: "std::vector<int, std::allocator<int>>::push_back(int const&)",
  _ZNKSt7__cxx1112basic_stringIcSt11char_traitsIcESaIcEE4sizeEv: "std::__cxx11::basic_string<char, std::char_traits<char>, std::allocator<char>>::size() const",
  _Z3addIiET_S0_S0_: "int add<int>(int, int)",
  _ZStlsISt11char_traitsIcEERSt13basic_ostreamIcT_ES5_PKc:
    "std::basic_ostream<char, std::char_traits<char>>& std::operator<< <std::char_traits<char>>(std::basic_ostream<char, std::char_traits<char>>&, char const*)",
  _Z4callPFivE: "call(int (*)())",
  _ZTV6Widget: "vtable for Widget",
  _ZN12_GLOBAL__N_13runEv: "(anonymous namespace)::run()",
  _ZZN3Foo3barEvENKUliE_clEi: "Foo::bar()::{lambda(int)#1}::operator()(int) const",
  _Z5printIJiPKcEEvDpT_: "void print<int, char const*>(int, char const*)",
};
// What is none of these, or no whole name, stays as it is.
const OTHERS = ["main", "_start", "_Z", "_ZN", "_R", "_RNv", "_ZN3fooE17", "_ZN9999999999foo", "_RNvB_3foo", "_ZS_", "_Z1fT_", "$LT$", "RUN", "Zeta", "_ZN3foo17h05af221e174051eE", "__wasm_call_ctors"];

// Names whose words would be doubled some sixty times, and some that go deep.
function hostileNames() {
  const pairs = Array.from({ length: 60 }, (_, i) => `S_IS${i.toString(36).toUpperCase()}_S${i.toString(36).toUpperCase()}_E`);
  const digits = "0123456789abcdefghijklmnopqrstuvwxyzABCDEFGHIJKLMNOPQRSTUVWXYZ";
  const back = place => (place > 62 ? `B${digits[Math.floor((place - 1) / 62)]}${digits[(place - 1) % 62]}_` : `B${digits[place - 1]}_`);
  let tuples = "INvC1a1fTuuE", last = tuples.indexOf("Tuu");
  for (let i = 0; i < 60; i++) {
    const here = tuples.length;
    tuples += `T${back(last)}${back(last)}E`;
    last = here;
  }
  const deep = ["I", "N", "P", "F"].flatMap(letter => [`_R${letter.repeat(3900)}`, `_Z1f${letter.repeat(3900)}`, `_Z1f${letter.repeat(3900)}i`]);
  const packs = Array.from({ length: 40 }, () => "DpSt5tupleIJDpT_T_EE");
  return [`_Z1fSt4pairIiiE${pairs.join("")}`, `_Z1fIJ${"i".repeat(300)}EEv${packs.join("")}`, `_R${tuples}E`, ...deep];
}

export function checkNames({ parts, report }) {
  for (const [what, names, read] of [["Rust, the older way", OLDER_RUST, parts.rustName], ["Rust, the newer way", NEWER_RUST, parts.rustName], ["C++", CPP, parts.cppName]]) {
    const wrong = Object.entries(names).filter(([name, wanted]) => read(name) !== wanted || parts.readableName(name) !== wanted).map(([name, wanted]) => `${name}: ${read(name)}, not ${wanted}`);
    report(`${Object.keys(names).length} names of ${what}, are as in the source`, () => wrong.length === 0, wrong);
  }
  const read = OTHERS.filter(name => parts.readableName(name) !== null);
  report("what no compiler made stays as it is", () => read.length === 0, read);
  const begun = performance.now(), found = hostileNames().filter(name => parts.readableName(name) !== null), took = performance.now() - begun;
  report("names that would never end do end", () => found.length === 0 && took < 5000, [`${took} ms`, ...found]);
}
