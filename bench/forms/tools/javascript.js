// Readings of JavaScript's own: JSON, JSON_FLOATS, JAVASCRIPT, JAVASCRIPT_NUMBER,
// JAVASCRIPT_PARSE_FLOAT; and JSON5. Each number is a double.
const fs = require('fs');
const vm = require('vm');

Error.stackTraceLimit = 0;
const bits = Buffer.alloc(8);

// a numeric literal can be the name of a property, and nothing longer can; an identifier can too
function ofJavaScript(text) {
    if (!/^[.0-9]/.test(text)) return undefined;
    new vm.Script(`"use strict"; ({${text}: 0})`);
    return vm.runInThisContext(`"use strict"; ${text}`);
}

// what isn't a number is NaN, and nothing is 0
function number(text) {
    const value = Number(text);
    return text === '' || Number.isNaN(value) ? undefined : value;
}

// `parseFloat` reads a prefix, and doesn't say where that ends. All of a text is read if `Number`
// takes it, without another radix, for the same value
function all(text) {
    const value = /^[-+]?0[box]/i.test(text) ? undefined : number(text);
    return Object.is(value, parseFloat(text)) ? value : undefined;
}

// otherwise it is the longest such prefix with its value
function end(text) {
    const value = parseFloat(text);
    for (let at = text.length - 1; at > 0; at--) {
        if (Object.is(all(text.slice(0, at)), value)) return at;
    }
    return 0;
}

function reader(form) {
    if (form.startsWith('JSON') && form !== 'JSON5') return JSON.parse;
    if (form === 'JAVASCRIPT_NUMBER') return number;
    if (form === 'JAVASCRIPT_PARSE_FLOAT') return all;
    return form === 'JSON5' ? require('json5').parse : ofJavaScript;
}

function answer(read, text) {
    try {
        const value = read(text);
        if (typeof value !== 'number') return read === all ? `-${end(text)}\n` : '-\n';
        bits.writeDoubleBE(value);
        return `d${bits.toString('hex')}\n`;
    } catch (error) {
        return '-\n';
    }
}

const read = reader(process.env.FORM);
const texts = fs.readFileSync(0, 'latin1').split('\n').slice(0, -1);
fs.writeFileSync(1, texts.map(text => answer(read, text)).join(''));
