// CSS's own reading, by the tokenizer of css-tree, and parseFloat for the value.
const fs = require('fs');
const csstree = require('css-tree');

const bits = Buffer.alloc(8);

function answer(text) {
    const tokens = [];
    csstree.tokenize(text, (type, start, end) => tokens.push([type, end]));
    const isOne = tokens.length === 1 && csstree.tokenNames[tokens[0][0]] === 'number-token';
    if (!isOne) return '-\n';
    bits.writeDoubleBE(parseFloat(text));
    return `f${bits.toString('hex')}\n`;
}

const texts = fs.readFileSync(0, 'latin1').split('\n').slice(0, -1);
fs.writeFileSync(1, texts.map(answer).join(''));
