"""The board that the page shows, as the tool prints one; moves that stop the play; and a study to measure by."""

KINDS = ' 歩 香 桂 銀 金 角 飛 玉 と 成香 成桂 成銀 馬 龍'.split(' ')
# as a diagram has them
LETTERS = {**{k: name for k, name in enumerate(KINDS)}, 10: '杏', 11: '圭', 12: '全'}
NUMERALS = ' 一二三四五六七八九'

# a hand that can take no further pawn, and the move that would take one
FULL = '７五歩(76)'
EMPTY_ROW = '| ・ ・ ・ ・ ・ ・ ・ ・ ・|一\n'
FULL_HAND = (
    '  ９ ８ ７ ６ ５ ４ ３ ２ １\n+---------------------------+\n' + 4 * EMPTY_ROW + '| ・ ・v歩 ・ ・ ・ ・ ・ ・|五\n| ・ ・ 歩 ・ ・ ・ ・ ・ ・|六\n'
    + 3 * EMPTY_ROW + '+---------------------------+\n先手の持駒：歩九十九　歩九十九　歩五十七　\n')
# lines of play whose last move cannot be played, for each reason
STOPPING = [['同　歩(77)'], ['７六歩(70)'], ['７六歩(66)'], ['７六歩成打'], ['４八金成(49)'], ['７七角(88)'], ['５一歩(57)'], ['５五歩打'], ['３三角成(88)', '８四歩(83)', '７七歩打'], [FULL]]


def numeral(n):
    tens, ones = divmod(n, 10)
    return (('' if tens == 1 else NUMERALS[tens]) + '十' if tens else '') + (NUMERALS[ones] if ones else '')


def hand(counts):
    held = [KINDS[kind] + (numeral(counts[kind]) if counts[kind] > 1 else '') + '　' for kind in (7, 6, 5, 4, 3, 2, 1) if counts.get(kind)]
    return ''.join(held) or 'なし'


def row(codes, rank):
    cells = [codes[f'{file}{rank}'] for file in range(9, 0, -1)]
    return '|' + ''.join(' ・' if code == 0 else ('v' if code > 16 else ' ') + LETTERS[code % 16] for code in cells) + '|' + NUMERALS[rank]


def diagram(browser):
    """By the table for screen readers and the hands."""
    shown = browser.run("""
        const cells = Object.fromEntries([...document.querySelectorAll('[data-square]')].map((cell) => [cell.dataset.square, Number(cell.dataset.code ?? 0)]));
        const held = (color) => [...document.querySelectorAll(`#${color}-hand [data-kind]`)].map((item) => [Number(item.dataset.kind), Number(item.dataset.count)]);
        const drawn = document.querySelectorAll('#board .piece').length;
        return { cells, drawn, white: held('white'), black: held('black'), turn: document.querySelector('#white-side.turn') ? 'white' : 'black' };""")
    assert shown['drawn'] == sum(code != 0 for code in shown['cells'].values())
    lines = ['手合割：その他', f"後手の持駒：{hand(dict(shown['white']))}", '  ９ ８ ７ ６ ５ ４ ３ ２ １', '+---------------------------+']
    lines += [row(shown['cells'], rank) for rank in range(1, 10)]
    lines += ['+---------------------------+', f"先手の持駒：{hand(dict(shown['black']))}"]
    return '\n'.join(lines + (['後手番'] if shown['turn'] == 'white' else []) + [''])


def study():
    """A main line of rooks that go to and fro, and 150 variations beside its moves, each of three moves with comments; 60 KB."""
    to_and_fro = ['３八飛(28)', '７二飛(82)', '２八飛(38)', '８二飛(72)']
    others = [['７六歩(77)', '３四歩(33)', '６六歩(67)'], ['３四歩(33)', '７六歩(77)', '４四歩(43)']]
    remark = '*これは一つの手で、ほかの手も同じくらいよく指されます。ゆっくり駒組みを進めます。あわてて攻めないことが大切です。'
    lines = ['先手：生徒', '後手：先生', '手合割：平手', '手数----指手---------消費時間--']
    for ply in range(1, 201):
        lines.append(f'{ply:4} {to_and_fro[(ply - 1) % 4]}   ( 0:{ply % 60:02}/00:{ply // 60:02}:00)')
        lines += [remark] if ply % 4 == 0 else []
    for start in range(150, 0, -1):
        lines += ['', f'変化：{start}手']
        lines += [f'{start + i:4} {move}   ( 0:05/00:01:00)' for i, move in enumerate(others[(start + 1) % 2])]
        lines += [remark]
    return '\n'.join(lines + ['']).encode()
