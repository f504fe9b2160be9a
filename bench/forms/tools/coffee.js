// CoffeeScript's own reading, by its lexer.
const fs = require('fs');
const CoffeeScript = require('coffeescript');

Error.stackTraceLimit = 0;
const bits = Buffer.alloc(8);

function answer(text) {
    // what follows # is a comment
    if (text.includes('#')) return '-\n';
    try {
        const [token, ...more] = CoffeeScript.tokens(text);
        const isOne = more.length === 1 && more[0][0] === 'TERMINATOR'
            && ['NUMBER', 'INFINITY', 'NAN'].includes(token[0]) && !text.endsWith('n');
        if (!isOne) return '-\n';
        bits.writeDoubleBE(CoffeeScript.eval(text));
        return `d${bits.toString('hex')}\n`;
    } catch (error) {
        return '-\n';
    }
}

const texts = fs.readFileSync(0, 'latin1').split('\n').slice(0, -1);
process.stdout.write(texts.map(answer).join(''));
