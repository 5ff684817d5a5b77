// Prints the mutants of files of JavaScript for mutate, a line of JSON each:
// [path, line, place, first byte, byte behind the last, old text, new text]
import { readFileSync } from "node:fs";
import { createRequire } from "node:module";

const ts = createRequire(import.meta.url)("/usr/share/nodejs/typescript");
const kinds = ts.SyntaxKind;
const OTHER = new Map([
    [kinds.LessThanToken, "<="],
    [kinds.LessThanEqualsToken, "<"],
    [kinds.GreaterThanToken, ">="],
    [kinds.GreaterThanEqualsToken, ">"],
]);
const LOGICAL = new Set([kinds.AmpersandAmpersandToken, kinds.BarBarToken, kinds.QuestionQuestionToken]);
const EXTREMES = new Set(["Math.max", "Math.min"]);

/** The list of texts without each one in turn. */
const withoutEach = (texts) => texts.map((_, at) => texts.filter((_, other) => other !== at));

/** What may stand in the place of a node, by the rules. */
function* changes(node, textOf) {
    if (ts.isExpressionStatement(node) || ts.isThrowStatement(node)) yield ";";
    if (ts.isObjectLiteralExpression(node) && (ts.isCallExpression(node.parent) || ts.isNewExpression(node.parent))) {
        for (const rest of withoutEach(node.properties.map(textOf))) yield `{ ${rest.join(", ")} }`;
    }
    if (ts.isCallExpression(node) && EXTREMES.has(textOf(node.expression)) && node.arguments.length > 1) {
        for (const rest of withoutEach(node.arguments.map(textOf))) yield `${textOf(node.expression)}(${rest.join(", ")})`;
    }
    if (ts.isBinaryExpression(node)) {
        const operator = node.operatorToken.kind;
        if (LOGICAL.has(operator)) yield* [`(${textOf(node.left)})`, `(${textOf(node.right)})`];
        if (OTHER.has(operator)) yield `(${textOf(node.left)} ${OTHER.get(operator)} ${textOf(node.right)})`;
    }
    if (ts.isNumericLiteral(node) && Number(node.text) !== 0) yield* [`(${node.text} * 2)`, halved(Number(node.text))];
    if (ts.isBigIntLiteral(node) && BigInt(node.text.slice(0, -1)) !== 0n) yield* [`(${node.text} * 2n)`, `(${node.text} / 2n)`];
}

const halved = (number) => String(Number.isInteger(number) ? Math.floor(number / 2) : number / 2);

/** The names of the functions and classes around a node. */
function placeOf(node) {
    const names = [];
    for (let it = node.parent; it; it = it.parent) {
        if ((ts.isFunctionLike(it) || ts.isClassLike(it) || ts.isVariableDeclaration(it)) && it.name) names.unshift(it.name.getText());
        else if (ts.isConstructorDeclaration(it)) names.unshift("constructor");
    }
    return names.join(".") || "module";
}

for (const path of process.argv.slice(2)) {
    const source = readFileSync(path, "utf8");
    const file = ts.createSourceFile(path, source, ts.ScriptTarget.Latest, true);
    const textOf = (node) => node.getText(file);
    const byteAt = (at) => Buffer.byteLength(source.slice(0, at));
    const visit = (node) => {
        const begin = node.getStart(file);
        const line = file.getLineAndCharacterOfPosition(begin).line + 1;
        for (const text of changes(node, textOf)) {
            console.log(JSON.stringify([path, line, placeOf(node), byteAt(begin), byteAt(node.end), textOf(node), text]));
        }
        ts.forEachChild(node, visit);
    };
    visit(file);
}
