// The page: an editor on the left, what came on the right, lessons, examples and links.

const at = (id) => document.getElementById(id);
const data = JSON.parse(at('data').textContent);
const DEEDS = ['run', 'graph', 'trace', 'profile', 'orders'], SIZES = ['elements', 'frames', 'steps', 'take'];
const USUAL = { elements: '1', frames: '256', steps: '1000000', take: 'oldest' };          // what `ets` takes of standard input, where nothing is said
const FILED = { elements: '1', frames: '1024', steps: '4294967296', take: 'depth' };       // and what it takes of a file
const GENEROUS = { elements: '1', frames: '1024', steps: '100000000', take: 'depth' };     // what this page takes first
const LAST = '20000';                                                                      // of a long run, how many events are shown

function make(name, given = {}, ...inside) {
  const it = Object.assign(document.createElement(name), given);
  it.append(...inside);
  return it;
}

// ---- The program: a module, and a worker that runs it

const worker = { it: null, module: null, waits: null, count: 0, clock: 0 };

async function unpacked(bytes, stream) {
  return new Uint8Array(await new Response(new Blob([bytes]).stream().pipeThrough(stream)).arrayBuffer());
}

const bytesOf = (base64) => Uint8Array.from(atob(base64), (it) => it.charCodeAt(0));

async function openModule() {
  worker.module = await WebAssembly.compile(await unpacked(bytesOf(at('module').textContent.trim()), new DecompressionStream('gzip')));
  startWorker();
}

function startWorker() {
  const place = URL.createObjectURL(new Blob([at('worker').textContent], { type: 'text/javascript' }));
  worker.it = new Worker(place);
  worker.it.postMessage(worker.module);
  worker.it.onmessage = ({ data: it }) => {
    if (worker.waits?.id !== it.id) return;
    const { answer } = worker.waits;
    worker.waits = null;
    answer(it);
  };
}

// Runs commands over these files. Nothing answers where they are stopped.
function ask(commands, files) {
  return new Promise((answer) => {
    worker.waits = { id: ++worker.count, answer };
    worker.it.postMessage({ id: worker.count, commands, files });
  });
}

function stop() {
  if (!worker.waits) return;
  worker.it.terminate();
  worker.waits = null;
  startWorker();
  rest();
  say('Stopped.');
}

function rest() {
  clearInterval(worker.clock);
  at('stop').disabled = true;
  document.body.classList.remove('busy');
}

function say(...what) { at('said').replaceChildren(...what); }

// ---- The editor: a field without colour, and below it the same text with colours, numbers of lines, and a mark

const colours = data.grammars.map((it) => new Colours(it));
const isGraph = () => /^etsgraph /.test(at('program').value);
const hasInputs = () => !isGraph() && /^inputs$/m.test(at('program').value);
const mark = { line: 0, from: 0, length: 0 };

function show() {
  const lines = colours[isGraph() ? 1 : 0].html(at('program').value).split('\n');
  at('shown').innerHTML = lines.map((it) => `<div>${it || '<br>'}</div>`).join('');
  if (mark.line) {
    const line = at('shown').children[mark.line - 1], text = line.textContent, end = mark.length ? mark.from + mark.length : text.length;
    line.className = 'ill';
    line.prepend(make('span', { className: 'mark' }, text.slice(0, mark.from), make('u', { textContent: text.slice(mark.from, end) || ' ' })));
  }
  at('inputs').disabled = hasInputs();
  at('inputs').placeholder = hasInputs() ? 'after the line `inputs` of the program' : 'none';
}

// Where a line and a column begin in the text. Columns are counted in bytes.
function offsetOf(line, column) {
  const lines = at('program').value.split('\n'), before = lines.slice(0, line - 1).reduce((sum, it) => sum + it.length + 1, 0);
  return before + new TextDecoder().decode(new TextEncoder().encode(lines[line - 1] ?? '').slice(0, column - 1)).length;
}

// The word that begins there, in characters of its line.
function wordAt(line, column) {
  const begin = offsetOf(line, column), it = /^(\w+|:=|->|<<|>>|[=!<>]=|\S)/.exec(at('program').value.slice(begin));
  return { begin, length: it ? it[0].length : 0, from: begin - offsetOf(line, 1) };
}

function setMark(line, column, hint) {
  const it = line && column ? wordAt(line, column) : { from: 0, length: 0 };
  Object.assign(mark, { line, from: it.from, length: it.length });
  at('hint').hidden = !hint;
  at('hint').replaceChildren(...hint && line ? [placeButton(line, column || 1, column ? `Line ${line}, column ${column}` : `Line ${line}`), ' '] : [], hint ?? '');
  show();
  if (line) reveal(line);
}

const reveal = (line) => at('shown').children[line - 1]?.scrollIntoView({ block: 'nearest' });

// Puts the cursor on what stands there.
function goTo(line, column) {
  const it = wordAt(line, column);
  at('program').focus({ preventScroll: true });
  at('program').setSelectionRange(it.begin, it.begin + it.length);
  reveal(line);
}

// A button that leads to a place of the program.
const placeButton = (line, column, words) => make('button', { type: 'button', className: 'place', textContent: words ?? `line ${line}, column ${column}`, onclick: () => goTo(line, column) });

at('program').addEventListener('input', () => {
  at('example').value = '';
  setMark(0);
  save();
});
at('program').addEventListener('keydown', (event) => {
  if (event.key !== 'Enter' || event.ctrlKey || event.metaKey || event.shiftKey || event.isComposing) return;
  const it = at('program'), line = it.value.slice(0, it.selectionStart).split('\n').pop(), indent = /^ */.exec(line)[0] + (/[{(]\s*$/.test(line) ? '    ' : '');
  if (!indent) return;
  event.preventDefault();
  document.execCommand('insertText', false, '\n' + indent);
});

// ---- What is given: the program, its inputs, the sizes of the machine

const sizes = () => Object.fromEntries(SIZES.map((it) => [it, at(it).value]));

function setSizes(given) {
  for (const it of SIZES) at(it).value = given[it];
  tellSizes();
}

function tellSizes() {
  const { elements, frames, steps, take } = sizes();
  at('machine-said').textContent = `Machine: ${elements} element${elements === '1' ? '' : 's'}, ${frames} frames, ${(+steps).toLocaleString('en')} steps, ${take}`;
}

function setProgram({ text, inputs }, given) {
  at('program').value = text.replace(/\n*$/, '\n');
  at('inputs').value = inputs;
  at('editor').scrollTop = 0;
  if (given) setSizes(given);
  setMark(0);
  save();
}

const program = () => at('program').value.replace(/\n*$/, '\n');

// The file that commands read.
const fileName = () => isGraph() ? 'graph.ets' : 'program.df';

// The file with the inputs after it, unless it has inputs of its own.
function given() {
  const inputs = hasInputs() ? [] : at('inputs').value.trim().split(/[\s,]+/).filter((it) => it);
  return [...inputs.some((it) => it.startsWith('-')) ? ['--'] : [], fileName(), ...inputs];
}

// The options that differ from what `ets` takes where nothing is said.
const options = (...names) => names.flatMap((it) => at(it).value === FILED[it] ? [] : [`--${it}`, at(it).value]);

const COMMANDS = {
  run: () => ['run', ...options(...SIZES), ...given()],
  graph: () => [isGraph() ? 'check' : 'lower', fileName()],
  trace: () => ['trace', '--format', 'html', '--last', LAST, ...options(...SIZES), ...given()],
  profile: () => ['profile', '--svg', ...options('frames', 'steps'), ...given()],
  orders: () => ['orders', ...options('elements', 'frames', 'steps'), ...given()],
};

// ---- Deeds

let deed = 'run';

// Does a deed. On a phone, where what comes is below, the page moves to it if a button asked for it.
async function act(which, isAsked = false) {
  if (!worker.module) return;
  stop();
  deed = which;
  for (const it of DEEDS) at(it).setAttribute('aria-pressed', it === which);
  setMark(0);
  at('inputs').removeAttribute('aria-invalid');
  const command = COMMANDS[which](), text = program(), files = { [fileName()]: text };
  const begun = performance.now();
  at('stop').disabled = false;
  document.body.classList.add('busy');
  say('Running …');
  clearInterval(worker.clock);
  worker.clock = setInterval(() => say(`Running … ${((performance.now() - begun) / 1000).toFixed(0)} s`), 1000);
  save();
  const { done: [end], took } = await ask([command], files), isRefused = end.out.startsWith('refused:');
  const places = end.trap || isGraph() || isRefused ? new Map() : await placesOf(files);
  rest();
  say(make('code', { textContent: ['ets', ...command].join(' ') }), ` · ${took < 1000 ? `${took.toFixed(0)} ms` : `${(took / 1000).toFixed(1)} s`}`);
  const out = at('out');
  out.className = which;
  out.scrollTop = 0;
  out.replaceChildren();
  if (end.trap) out.append(make('p', { className: 'end bad', textContent: `The module broke off, which it should not: ${end.trap}. Too little memory is the likely cause.` }));
  else if (isRefused) tellRefusal(end);
  else if (which === 'trace' && end.out) out.append(traceOf(end.out));
  else if (which === 'profile' && end.out.includes('<svg')) out.append(document.importNode(new DOMParser().parseFromString(end.out, 'image/svg+xml').documentElement, true));
  else if (which === 'graph') drawGraph(isGraph() ? text : end.out, places);
  else tellReport(end.out, places);
  if (!isRefused && end.err) {
    const note = make('div', { className: 'note', textContent: plain(end.err) }), verdict = out.querySelector('.end');
    if (verdict) verdict.after(note);
    else out.prepend(note);
  }
  if (isAsked && matchMedia('(max-width:760px)').matches) at('result').scrollIntoView({ behavior: 'smooth' });
}

// What the hints say, but for the line as it is written, which the editor shows.
const plain = (err) => err.trimEnd().replace(/^hint: /gm, '').replace(/^line \d+ is `.*`(; at column \d+ is `.*`)?\n/m, '');

// The place in the program of each node: `at BLOCK NODE line LINE column COLUMN`.
async function placesOf(files) {
  const { done } = await ask([['lower', '--map', fileName()]], files);
  return new Map(Array.from(done[0].out.matchAll(/^at (\d+) (\d+) line (\d+) column (\d+)$/gm), ([, block, node, line, column]) => [`${block} ${node}`, [+line, +column]]));
}

// A refusal: a mark in the editor, and the hint below it. What is refused of a good program are the inputs or the machine.
function tellRefusal({ out, err }) {
  const first = out.split('\n')[0], text = plain(err), isOfProgram = /^refused: (program|read|check) /.test(first);
  const found = !isOfProgram ? null : /\bline (\d+)(?:,? column (\d+))?/.exec(first) ?? /\bline (\d+)/.exec(text);
  const [line, column] = found ? [+found[1], +(found[2] ?? 0)] : [0, 0];
  if (!isOfProgram && !/memory/i.test(first)) at('inputs').setAttribute('aria-invalid', true);
  setMark(line, column, text || first);
  at('out').append(make('p', { className: 'end bad', textContent: 'Refused: ' + (line ? `there is a mistake in line ${line}.` : 'it cannot be run.') }), make('pre', { textContent: first }));
}

// What each kind of line of a report tells.
const GLOSSES = [
  [/^output (\d+)/, (it, isOnly) => isOnly ? 'the value of main' : `value ${+it[1] + 1} of main`],
  [/^cell (\w+) (\d+)/, (it) => `${it[1]}[${it[2]}]`],
  [/^deferred 0$/, () => 'no reader waits for a cell'],
  [/^deferred (\d+)/, (it) => `${it[1]} wait for a cell that nothing filled`],
  [/^waiting 0 0$/, () => 'nothing waits for a frame or a credit'],
  [/^waiting (\d+) (\d+)/, (it) => `wait for a frame: ${it[1]}; for a credit of a loop: ${it[2]}`],
  [/^frames 0$/, () => 'no frame is in use'],
  [/^frames (\d+)/, () => 'frames in use'],
  [/^orders (\d+) same/, (it) => `${it[1]} random orders have this one report`],
];
const ENDS = {
  Rest: ['good', 'At rest: all that was begun is done.'],
  Steps: ['bad', 'Out of steps: it made as many as it may, and has more to do.'],
  Starved: ['bad', 'Starved: it waits for frames or credits, and none comes.'],
  Clash: ['bad', 'Clash: a second store into one cell.'],
  Stuck: ['bad', 'Stuck: a rule of the machine excludes a token.'],
};

function tellReport(text, places) {
  const lines = text.trimEnd().split('\n'), end = /^end (\w+)/m.exec(text), isWaiting = /^deferred [1-9]/m.test(text);
  const isFaulty = /^output \d+ fault/m.test(text);
  const [kind, words] = end?.[1] !== 'Rest' ? ENDS[end?.[1]] ?? ['bad', ''] :
    isWaiting ? ['bad', 'At rest, but readers wait for cells that nothing filled.'] : isFaulty ? ['bad', 'At rest, with a fault for a value.'] : ENDS.Rest;
  if (words) at('out').append(make('p', { className: `end ${kind}`, textContent: words }));
  const table = make('div', { className: 'report' }), isOnly = !/^output 1 /m.test(text);
  for (const line of lines) {
    const code = make('code'), gloss = GLOSSES.map(([form, tell]) => [form.exec(line), tell]).find(([it]) => it);
    const fault = /^(.* fault \w+ )(at (\d+) (\d+))$/.exec(line), place = fault && places.get(`${fault[3]} ${fault[4]}`);
    if (place) code.append(fault[1] + fault[2] + ' ', placeButton(...place));
    else code.append(line);
    table.append(code, make('small', { textContent: gloss ? gloss[1](gloss[0], isOnly) : '' }));
  }
  at('out').append(table);
}

function traceOf(page) {
  const it = make('iframe', { title: 'The run, event by event', srcdoc: page });
  it.setAttribute('sandbox', 'allow-scripts');
  return it;
}

function drawGraph(text, places) {
  const own = isGraph(), out = at('out');
  const placeOf = (block, node) => own ? [node.line, 1] : places.get(`${block.number} ${node.number}`);
  for (const block of blocksOf(text)) {
    out.append(make('h2', { textContent: `${own ? 'block' : /__/.test(block.name) ? 'loop' : 'fn'} ${block.name}` }));
    if (block.nodes.length > 600) { out.append(make('p', { textContent: `It has ${block.nodes.length} nodes, which is too much for a picture.` })); continue; }
    const nameOf = (node) => { const it = placeOf(block, node); return it ? `line ${it[0]}` : ''; };
    out.append(make('div', { className: 'picture' }, pictureOf(block, nameOf, (node) => goTo(...placeOf(block, node)))));
  }
  const key = make('p', { className: 'key' });
  if (out.querySelector('.net .true, .net .false')) key.append(make('span', { className: 'true', textContent: 'in the arm for true' }), ' ', make('span', { className: 'false', textContent: 'in the arm for false' }), ' ');
  key.append('A node leads to its place in the editor.');
  out.append(key);
  if (!own) {
    const use = make('button', { type: 'button', textContent: 'Edit this graph', onclick: () => { setProgram({ text: text.replace(/(^main .*\n)[^]*/m, '$1'), inputs: at('inputs').value }); at('program').focus(); } });
    out.append(make('details', {}, make('summary', { textContent: 'The graph as text' }), make('pre', { textContent: text }), use));
  }
}

for (const it of DEEDS) at(it).addEventListener('click', () => act(it, true));
at('stop').addEventListener('click', stop);
document.addEventListener('keydown', (event) => {
  if (event.key === 'Enter' && (event.ctrlKey || event.metaKey)) { event.preventDefault(); act(deed); }
  if (event.key === 'Escape' && !at('about').open) stop();
});
at('inputs').addEventListener('keydown', (event) => { if (event.key === 'Enter' && !event.ctrlKey && !event.metaKey) act(deed); });
for (const it of ['inputs', ...SIZES]) at(it).addEventListener('input', () => { tellSizes(); save(); });

// ---- Lessons and examples

let lesson = null, before = null;   // what is open, and the sizes of the machine that were there before the first one

function openLesson(key, isNew = true) {
  const it = data.lessons.find((one) => one.key === key) ?? null;
  if (it && !lesson) before = sizes();
  if (!it && before && isNew) { setSizes(before); before = null; }
  lesson = it;
  at('lesson').value = it ? it.key : '';
  at('text').hidden = at('steps-of-lesson').hidden = !it;
  document.body.classList.toggle('with-lesson', Boolean(it));
  if (!it) { if (isNew) save(); return; }
  at('text').innerHTML = `<h2>${it.title}</h2>${it.html}`;
  at('text').scrollTop = 0;
  const place = data.lessons.indexOf(it);
  at('previous').disabled = place === 0;
  at('next').disabled = place === data.lessons.length - 1;
  if (isNew && it.files.length) { openFile(it.files[0], USUAL); act('run'); }
  save();
}

function openFile(name, given) {
  at('example').value = '';
  setProgram(data.files[name], given);
}

function turnLesson(by) {
  openLesson(data.lessons[data.lessons.indexOf(lesson) + by].key);
  at('text').focus({ preventScroll: true });
  at('text').scrollIntoView({ block: 'nearest' });
}

function openExample(name) {
  if (lesson) openLesson('');
  setProgram(data.examples[name]);
  at('example').value = name;
  act(deed);
}

at('text').addEventListener('click', ({ target }) => {
  if (!target.dataset.try) return;
  const { file, inputs, deed: which, options: other } = JSON.parse(target.dataset.try);
  openFile(file, { ...USUAL, ...other });
  if (inputs !== undefined) at('inputs').value = inputs;
  act(which ?? 'run', true);
});
at('lesson').addEventListener('change', () => openLesson(at('lesson').value));
at('example').addEventListener('change', () => { if (at('example').value) openExample(at('example').value); });
at('previous').addEventListener('click', () => turnLesson(-1));
at('next').addEventListener('click', () => turnLesson(1));
at('leave').addEventListener('click', () => { openLesson(''); at('program').focus(); });

at('lesson').append(new Option('no lesson', ''), ...data.lessons.map((it) => new Option(it.title, it.key)));
at('example').append(new Option('own program', ''), ...Object.keys(data.examples).map((it) => new Option(it.replace(/\.df$/, '').replace(/_/g, ' '), it)));

// ---- The link: `#1` and what is given, packed; `#example=NAME`; `#lesson=KEY`

let saving = 0;

async function link() {
  const it = { p: at('program').value, i: at('inputs').value, m: SIZES.map((one) => at(one).value).join(' '), d: deed, l: lesson?.key };
  const bytes = await unpacked(new TextEncoder().encode(JSON.stringify(it)), new CompressionStream('deflate-raw'));
  return '#1' + btoa(String.fromCharCode(...bytes)).replace(/\+/g, '-').replace(/\//g, '_').replace(/=+$/, '');
}

// Writes the link of what there is now, a moment later. Until the page is ready its address is what was asked for.
function save() {
  if (!document.documentElement.dataset.ready) return;
  clearTimeout(saving);
  saving = setTimeout(async () => history.replaceState(null, '', await link()), 300);
}

// Opens what the link has. Says whether it had anything.
async function restore() {
  const words = decodeURIComponent(location.hash.slice(1)), [name, value] = words.split('=');
  if (name === 'example' && data.examples[`${value}.df`]) { openExample(`${value}.df`); return true; }
  if (name === 'lesson' && data.lessons.some((it) => it.key === value)) { openLesson(value); return true; }
  if (!words.startsWith('1')) return false;
  try {
    const it = JSON.parse(new TextDecoder().decode(await unpacked(bytesOf(words.slice(1).replace(/-/g, '+').replace(/_/g, '/')), new DecompressionStream('deflate-raw'))));
    openLesson(it.l ?? '', false);
    const values = it.m.split(' '), name = Object.keys(data.examples).find((one) => data.examples[one].text.trimEnd() === it.p.trimEnd());
    setProgram({ text: it.p, inputs: it.i }, Object.fromEntries(SIZES.map((one, place) => [one, values[place] ?? GENEROUS[one]])));
    at('example').value = name ?? '';
    act(DEEDS.includes(it.d) ? it.d : 'run');
    return true;
  } catch {
    say('The link is not whole, so what it had cannot be shown.');
    return false;
  }
}

addEventListener('hashchange', restore);
at('share').addEventListener('click', async () => {
  clearTimeout(saving);
  history.replaceState(null, '', await link());
  try {
    await navigator.clipboard.writeText(location.href);
    say('The link is copied.');
  } catch {
    say('The link is in the address line.');
  }
});

// ---- About

function fillAbout() {
  const { facts } = data, rows = Object.entries(facts).filter(([name]) => name !== 'proof').flatMap(([name, text]) => [make('dt', { textContent: name }), make('dd', { textContent: text })]);
  const paragraph = (text, className = '') => make('p', { textContent: text, className });
  at('about').append(
    make('form', { method: 'dialog' }, make('button', { textContent: 'Close', className: 'main' })),
    make('h2', { textContent: 'What this page is' }),
    paragraph(`It is the program ets ${facts.version}: a compiler and an emulator of a dataflow machine of the Monsoon kind. It runs here, in your browser, as WebAssembly. The page asks nobody for anything, keeps nothing, and needs no network.`),
    facts.proof ? paragraph(facts.proof, 'bad') : paragraph('The program is proved: that the report of a run tells the truth about the program is the contract of the function that makes it. What was proved is handed to another compiler here than for Linux.'),
    paragraph('So these are trusted here, and not proved: clang and its WebAssembly back end; a script that changes the program’s text for 64-bit WebAssembly; a C file of 300 lines in place of Linux and its library; wasm-opt, which makes it 32-bit WebAssembly; your browser; and this page’s script, which draws the graphs and shows the reports.'),
    paragraph('To check it: playground/check PAGE, in the repository, plays the sessions of the command line against the module of the page, and compares both streams and the status, byte for byte. playground/make makes the page again, with the same bytes.'),
    make('h2', { textContent: 'How to use it' }),
    paragraph('Ctrl+Enter does again what was done last, Escape stops it. A text that begins with etsgraph is a graph, and is run as such. A link has the program, its inputs and the sizes of the machine behind the #; whoever opens it needs this page at the same address, or a copy of it, and puts what is from # on behind its address. The machine here has one thread.'),
    make('h2', { textContent: 'Made from' }), make('dl', {}, ...rows));
}

at('what').addEventListener('click', () => at('about').showModal());

// ---- The beginning

(async () => {
  const begun = performance.now();
  fillAbout();
  if (data.facts.proof) document.querySelector('h1 span').textContent = 'trial, not proved';
  setSizes(GENEROUS);
  at('machine').open = matchMedia('(min-width:761px)').matches;
  setProgram(data.examples['factorial.df']);
  at('example').value = 'factorial.df';
  try {
    await openModule();
  } catch (it) {
    return say(`This browser cannot open the program: ${it.message}. It has to know WebAssembly, workers and DecompressionStream, as browsers since 2023 do.`);
  }
  const took = performance.now() - begun;
  if (!await restore()) act('run');
  document.documentElement.dataset.ready = took.toFixed(0);
})();
