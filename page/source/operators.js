// Constant expressions in the words of the text, from the planner's tables.

// The names of the operators, by their codes: the header has them in order.
function operatorNames(numbers) {
  const names = Object.keys(numbers);
  return names.slice(names.indexOf("i32_const"), names.indexOf("any_convert_extern") + 1).map(name => name.replace("_", "."));
}

// Operands that are more than an index.
const OPERANDS = {
  "i32.const": ({ low }) => String(Number(low) | 0),
  "i64.const": ({ low }) => String(BigInt.asIntN(64, BigInt(low))),
  "f32.const": ({ low }) => bitsOf(low, 8),
  "f64.const": ({ low }) => bitsOf(low, 16),
  "v128.const": ({ low, high }) => `0x${digitsOf(high, 16)}${digitsOf(low, 16)}`,
  "ref.null": (operator, numbers) => heapWords(operator, numbers),
  "array.new_fixed": ({ index, low }) => `${index} ${low}`,
};
const WITH_INDEX = ["global.get", "ref.func", "struct.new", "struct.new_default", "array.new", "array.new_default"];

const digitsOf = (number, digits) => number.toString(16).padStart(digits, "0");
const bitsOf = (number, digits) => `0x${digitsOf(number, digits)}`;

function operatorWords(operator, numbers, names = operatorNames(numbers)) {
  const name = names[operator.code] ?? "?", operand = OPERANDS[name];
  if (operand) return `${name} ${operand(operator, numbers)}`;
  return WITH_INDEX.includes(name) ? `${name} ${operator.index}` : name;
}

// One of the expressions of a list of them.
function expressionWords({ parts, operators }, number, numbers) {
  const { begin, len } = parts.get(number), names = operatorNames(numbers);
  return operators.slice(begin, begin + len).map(operator => operatorWords(operator, numbers, names)).join("; ");
}
