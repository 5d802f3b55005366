// Cases of the binding. Each is a function that throws; all are tried, and what failed is told.
import assert from 'node:assert/strict';
import { execFileSync, spawnSync } from 'node:child_process';
import { readFileSync } from 'node:fs';
import { pathToFileURL } from 'node:url';

const [root, wasm] = process.argv.slice(2);
const binding = await import(pathToFileURL(`${root}/bindings/js/kif.js`));
const { load, KifError, KINDS, Mode, PRESETS, REASONS, Record, SPECIALS } = binding;
const kif = await load(readFileSync(wasm));

const file = (name) => readFileSync(`${root}/${name}`);
const tool = (...words) => execFileSync(`${root}/kifu`, words, { cwd: root, encoding: 'utf8', stdio: ['ignore', 'pipe', 'ignore'] });
const answers = ['board', 'game', 'game-cut', 'game-put', 'losses'];
const recorded = (name) => kif.read(file(`tests/kifu.d/${name}.kif`)).record;
const lesson = kif.read(file('examples/lesson.kif')).record;
const H = '手合割：平手\n手数----指手--\n';
const M = '   1 ７六歩(77)\n';

// Number and figures of what a call refuses.
function refused(call, number, name, figures) {
  assert.throws(call, (refusal) => {
    assert(refusal instanceof KifError);
    assert.deepEqual([refusal.number, refusal.name, [...refusal.figures]], [number, name, figures]);
    assert(refusal.words.length > 0 && !/undefined|NaN/.test(refusal.message), refusal.message);
    return true;
  });
}

// The 100 bytes of a position as the tool prints it.
function diagram({ turn, cells, hands }) {
  const letters = KINDS.map((kind) => ({ 成香: '杏', 成桂: '圭', 成銀: '全' })[kind] ?? kind);
  const numeral = (n) => (n < 10 ? ' 一二三四五六七八九'[n] : `十${n > 10 ? ' 一二三四五六七八九'[n - 10] : ''}`);
  const held = (counts) => [7, 6, 5, 4, 3, 2, 1].map((kind) => (counts[kind - 1] === 0 ? '' : `${KINDS[kind]}${counts[kind - 1] > 1 ? numeral(counts[kind - 1]) : ''}　`)).join('') || 'なし';
  const cell = (code) => (code === 0 ? ' ・' : (code > 16 ? 'v' : ' ') + letters[code % 16]);
  const rows = [1, 2, 3, 4, 5, 6, 7, 8, 9].map((rank) => `|${[9, 8, 7, 6, 5, 4, 3, 2, 1].map((f) => cell(cells[9 * (f - 1) + rank - 1])).join('')}|${'一二三四五六七八九'[rank - 1]}\n`);
  const edge = '+---------------------------+\n';
  return `手合割：その他\n後手の持駒：${held(hands.white)}\n  ９ ８ ７ ６ ５ ４ ３ ２ １\n${edge}${rows.join('')}${edge}先手の持駒：${held(hands.black)}\n${turn === 'white' ? '後手番\n' : ''}`;
}

// What a call gives, or undefined where it is refused; nothing else is thrown.
function orRefused(call) {
  try {
    return call();
  } catch (refusal) {
    if (!(refusal instanceof KifError)) throw refusal;
    return undefined;
  }
}

// Whether there is a record; and then all its parts are asked for, each line is cut, and it is written in each mode and read back.
function walked(made) {
  const record = orRefused(made);
  if (record === undefined) return false;
  assert.equal(record.headers.length + record.lines.length > 0, true);
  record.lines.forEach((_, line) => {
    record.entries(line).forEach((_, entry) => orRefused(() => record.position(line, entry)));
    orRefused(() => record.cut(line));
  });
  for (const mode of [0, 1, 2]) orRefused(() => kif.read(record.write(mode).bytes));
  return true;
}

const cases = {
  'the list of lines is the tool’s'() {
    for (const name of ['examples/lesson.kif', 'examples/fork.kif', ...answers.map((answer) => `tests/kifu.d/${answer}.kif`)]) {
      const { record, taken } = kif.read(file(name));
      const lines = record.lines.map((line, k) => `line ${k} start ${line.start} moves ${line.entries} parent ${line.parent}\n`);
      assert.equal(`read ${taken} block ${record.block.length}\n${lines.join('')}`, tool('list', name));
    }
  },

  'texts are written as recorded'() {
    for (const name of answers) {
      const record = recorded(name);
      assert.equal(record.write(Mode.Plain).text, file(`tests/kifu.d/${name}.out`).toString());
      const shared = file(`tests/kifu.d/${name}.shared`).toString();
      if (shared.startsWith('refused')) refused(() => record.write(), 20, 'StartsAtZero', [2, 0]);
      else assert.equal(record.write().text, shared);
    }
    assert.equal(recorded('losses').write(Mode.Plain).leftOut, 2);
  },

  'edits give the recorded texts, and a cut what was'() {
    const game = recorded('game');
    const put = game.putIn(0, file('tests/kifu.d/game.new'));
    assert.equal(put.record.write().text, file('tests/kifu.d/game-put.shared').toString());
    const cut = game.cut(1);
    assert.equal(cut.record.write().text, file('tests/kifu.d/game-cut.shared').toString());
    assert.equal(cut.removed, game.lines.length - cut.record.lines.length);
    assert(put.record.cut(put.line).record.equals(game));
    assert(!put.record.equals(game));
  },

  'positions are the tool’s'() {
    for (const name of ['examples/lesson.kif', 'tests/kifu.d/board.kif']) {
      const { record } = kif.read(file(name));
      record.lines.forEach(({ entries }, line) => {
        for (let entry = 0; entry < entries; entry += 1) {
          const shown = spawnSync(`${root}/kifu`, ['show', name, line, entry], { cwd: root, encoding: 'utf8' });
          if (shown.status === 0) assert.equal(diagram(record.position(line, entry)), shown.stdout.replace(/^.*\n/, ''));
          else assert.throws(() => record.position(line, entry), KifError);
        }
      });
    }
  },

  'look-ups of one part agree with those of all'() {
    for (const record of [lesson, ...answers.map(recorded)]) {
      record.headers.forEach(({ key, value }, k) => assert.deepEqual([record.key(k), record.value(k)], [key, value]));
      let comments = 0;
      record.lines.forEach((line, k) => {
        assert.deepEqual(record.line(k), { ...line });
        record.entries(k).forEach((entry, e) => {
          assert.deepEqual(record.entry(k, e), entry);
          for (const comment of entry.comments) assert.equal(record.comment(comments++), comment);
        });
      });
      refused(() => record.comment(comments), 10, 'NoSuchPart', [comments, 0]);
    }
  },

  'entries are decoded as the block has them'() {
    const [slot, first, second] = lesson.entries(0);
    assert.deepEqual(slot, { type: 'slot', comments: ['Both sides have the same pieces, and Black moves first.'] });
    assert.deepEqual(first, {
      type: 'move', color: 'black', kind: 1, promote: null, to: { file: 7, rank: 6 }, from: { file: 7, rank: 7 },
      time: { now: { hour: null, minute: 0, second: 5 }, total: { hour: 0, minute: 0, second: 5 } }, comments: ["Opens the bishop's diagonal."],
    });
    assert.equal(second.time.now.hour, 1);
    const [taken, back] = lesson.entries(1);
    assert.deepEqual([taken.promote, back.to, KINDS[back.kind]], [true, null, '銀']);
    const ending = lesson.entries(0).at(-1);
    assert.deepEqual([ending.type, SPECIALS[ending.special], ending.time], ['special', '中断', null]);
    const [, dropped] = kif.read(`${H}1 ５五角不成打\n`).record.entries(0);
    assert.deepEqual([dropped.promote, dropped.from], [false, { file: 0, rank: 0 }]);
    assert.deepEqual(lesson.headers, [{ key: '先手', value: '生徒' }, { key: '後手', value: '先生' }]);
    assert.deepEqual([lesson.version, PRESETS[lesson.preset], lesson.diagram], [1, '平手', null]);
    assert.equal(recorded('board').diagram.cells.length, 81);
  },

  'where reading stopped is told'() {
    const { taken, reached, name } = kif.stop(file('examples/slips.kif'));
    assert.deepEqual([taken, reached, name], [{ at: 57, line: 4, column: 1 }, { at: 71, line: 4, column: 9 }, 'NoOrigin']);
    const texts = ['▲７六歩\n', '18446744073709551616 ７六歩(77)\n', ' 1 76\n', ' 1 ７六\n', ' 1 ７六歩\n', ' 1 ７六歩(77)', `${M}x\ny\n*c\n`, ''];
    assert.deepEqual(texts.map((text) => kif.stop(H + text).name), REASONS.slice(1));
    assert.equal(kif.read(`${H}1 ７六歩(77) (300:00/5:00:00)\n`).lost, 1);
    assert.deepEqual(kif.measure(file('examples/lesson.kif')), { length: 659, taken: 739 });
  },

  'each refusal has its number, its name, its figures and words'() {
    refused(() => kif.read(new Uint8Array(65536)), 1, 'TextTooLong', [65536, 0]);
    refused(() => kif.stop(new Uint8Array(300000)), 1, 'TextTooLong', [300000, 0]);
    refused(() => kif.read(Uint8Array.of(42, 255)), 2, 'NotUtf8', [1, 0]);
    refused(() => kif.read('手合割：その他\n先手の持駒：歩2\n'), 3, 'HandLine', [22, 0]);
    refused(() => kif.read(`手数\n${'1投了\n'.repeat(3300)}`), 4, 'BlockTooLong', [128 + 8 + 20 * 3301, 0]);
    refused(() => kif.read(`手合割：平手\r\n\r\n手数--\r\n${M}`), 6, 'NoEntry', [1, 1, 0, 0, 0, 32]);
    refused(() => kif.record(lesson.block.subarray(1)), 7, 'NotSound', [0, 0]);
    refused(() => lesson.cut(4), 10, 'NoSuchPart', [4, 0]);
    refused(() => lesson.entries(4), 10, 'NoSuchPart', [4, 0]);
    refused(() => lesson.putIn(0, 'x\n'), 11, 'NotOneVariation', [0, 0]);
    refused(() => lesson.putIn(0, 'x'.repeat(100000)), 11, 'NotOneVariation', [0, 0]);
    refused(() => lesson.putIn(1, M), 12, 'OutsideLine', [1, 1]);
    refused(() => lesson.putIn(0, M), 13, 'EntryTaken', [0, 1]);
    refused(() => kif.read('手合割：香落ち\n').record.position(0, 0), 15, 'NoStart', [1, 0]);
    refused(() => lesson.position(0, 6), 16, 'NoSuchEntry', [0, 6]);
    refused(() => kif.read(`${H}1 ７五歩打\n`).record.position(0, 1), 17, 'PlayStopped', [0, 1]);
    const many = kif.read(`先手の持駒：歩五十\n  ９ ８ ７ ６ ５ ４ ３ ２ １\n+---------------------------+\n${'| ・ ・ ・ ・ ・ ・ ・ ・ ・|一\n'.repeat(9)}+---------------------------+\n先手の持駒：歩五十\n`);
    refused(() => many.record.write(), 8, 'HandCount', [0, 0]);
    const wide = kif.read(`${H}1 ５五成銀成(44) (0:0/0:0)\n`).record;
    refused(() => wide.write(), 9, 'CannotWrite', [0, 1]);
  },

  'a move may have several variations in version 2'() {
    const two = lesson.restate();
    assert.equal(two.version, 2);
    const both = two.putIn(0, M).record;
    assert.deepEqual(both.lines.filter((line) => line.start === 1).map((line) => line.parent), [0, 0]);
    refused(() => two.restate(), 7, 'NotSound', [0, 0]);
    assert(kif.read(both.write().text).record.lines.some((line) => line.start === 1 && line.parent > 0));
  },

  'the longest texts and results are lent room'() {
    const { record } = kif.read(`手数\n${'1同歩打(0:0/0:0)\n'.repeat(3268)}`);
    assert.equal(record.entries(0).length, 3269);
    const { bytes } = record.write();
    assert(bytes.length > 65535);
    assert.equal(kif.read(`${'#\n'.repeat(32765)}a：\n`).taken, 65535);
  },

  'records are values'() {
    const block = lesson.block;
    assert(kif.sound(block) && kif.record(block).equals(lesson));
    block.fill(0);
    assert(!kif.sound(block) && kif.sound(lesson.block));
    const given = lesson.block;
    const record = kif.record(given);
    given.fill(0);
    assert(record.equals(lesson) && record instanceof Record);
    assert.equal(kif.read('a：\ufeffb\n').record.headers[0].value, '\ufeffb');
  },

  'of damaged texts and blocks all that is taken can be walked through'() {
    const text = file('examples/lesson.kif');
    const { block } = lesson;
    let taken = 0;
    for (const [bytes, made] of [[text, (spoilt) => kif.read(spoilt).record], [block, (spoilt) => kif.record(spoilt)]]) {
      for (let at = 0; at < bytes.length; at += 1) {
        for (const byte of [0, 10, 42, 255]) {
          const spoilt = Uint8Array.from(bytes);
          spoilt[at] = byte;
          if (walked(() => made(spoilt))) taken += 1;
        }
      }
    }
    assert(taken > 1000);
  },

  async 'it is loaded from an address too'() {
    const other = await load(pathToFileURL(wasm));
    assert.equal(other.read(M).taken, kif.read(M).taken);
  },

  'its types name each of its calls'() {
    const types = file('bindings/js/kif.d.ts').toString();
    for (const name of Object.keys(binding)) assert.match(types, new RegExp(`export (class|const|function) ${name}\\b`));
    for (const made of [binding.Kif, Record]) {
      for (const name of Object.getOwnPropertyNames(made.prototype)) assert.match(types, new RegExp(`^  (private |get )?${name}[(]`, 'm'));
    }
  },
};

let failed = 0;
for (const [name, held] of Object.entries(cases)) {
  try {
    await held();
  } catch (error) {
    failed += 1;
    console.log(`tests/node, ${name}: ${error.message}\n${error.stack.split('\n').find((line) => line.includes('binding.mjs')) ?? ''}`);
  }
}
console.log(`tests/node: ${Object.keys(cases).length - failed} cases hold${failed === 0 ? '' : `, ${failed} fail`}`);
process.exit(failed === 0 ? 0 : 1);
