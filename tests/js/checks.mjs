// The tests of bisquemop.mjs.
//
// usage: node checks.mjs ANSWERS CASES
//
// ANSWERS is the program of tests/js/answers.c, for this machine; CASES is how many cases are compared with it.
import { load } from 'bisquemop';
import { finish } from './harness.mjs';
import { testArguments } from './arguments.mjs';
import { testExamples } from './examples.mjs';
import { testHeader } from './header.mjs';
import { testLayouts } from './layouts.mjs';
import { testLoading } from './loading.mjs';
import { testNative } from './native.mjs';
import { testRefusals } from './refusals.mjs';

const [program, cases] = process.argv.slice(2);
const library = await load();
testHeader(library);
testExamples(library);
testRefusals(library);
testArguments(library);
testLayouts(library);
testNative(library, program, Number(cases));
await testLoading();
finish();
