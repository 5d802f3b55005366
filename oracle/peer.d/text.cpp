#include "text.h"

#include <array>
#include <cstdio>

using osl::Move;
using osl::NumEffectState;
using osl::Square;

namespace {

using Words = std::array<const char*, 10>;

constexpr Words FILES = {"", "１", "２", "３", "４", "５", "６", "７", "８", "９"};
constexpr Words RANKS = {"", "一", "二", "三", "四", "五", "六", "七", "八", "九"};
// Any of them stands behind any game, or none: OpenShogiLib passes over all but 投了.
constexpr std::array<const char*, 9> ENDINGS = {
    "", "投了", "中断", "千日手", "切れ負け", "反則負け", "持将棋", "入玉勝ち", "詰み",
};
// None has 持駒：, which OpenShogiLib takes for a hand also in a remark; 表 and ソ have the second byte 5C in CP932.
constexpr std::array<const char*, 8> REMARKS = {"", "よい手", "*", "&しおり", "表ソ能", "変化：2手", "投了", "(0:1/0:2)"};
constexpr std::array<const char*, 5> HEADERS = {
    "先手：あ\n", "後手：い\n", "棋戦：会\n", "開始日時：2020/01/02 10:00:00\n", "備考：a：b\n",
};
constexpr std::array<osl::Ptype, 7> IN_HAND = {osl::ROOK,   osl::BISHOP, osl::GOLD, osl::SILVER,
                                               osl::KNIGHT, osl::LANCE,  osl::PAWN};

template <typename... Figures>
std::string printed(const char* form, Figures... figures) {
  char text[40];
  std::snprintf(text, sizeof text, form, figures...);
  return text;
}

const char* kind(osl::Ptype ptype) {
  switch (ptype) {
    case osl::PPAWN: return "と";
    case osl::PLANCE: return "成香";
    case osl::PKNIGHT: return "成桂";
    case osl::PSILVER: return "成銀";
    case osl::PBISHOP: return "馬";
    case osl::PROOK: return "龍";
    case osl::KING: return "玉";
    case osl::GOLD: return "金";
    case osl::PAWN: return "歩";
    case osl::LANCE: return "香";
    case osl::KNIGHT: return "桂";
    case osl::SILVER: return "銀";
    case osl::BISHOP: return "角";
    case osl::ROOK: return "飛";
    default: return "";
  }
}

// A kind as a diagram has it, in one character.
const char* in_one(osl::Ptype ptype) {
  switch (ptype) {
    case osl::PLANCE: return "杏";
    case osl::PKNIGHT: return "圭";
    case osl::PSILVER: return "全";
    default: return kind(ptype);
  }
}

std::string hand(const NumEffectState& state, osl::Player side) {
  std::string text = side == osl::BLACK ? "先手の持駒：" : "後手の持駒：";
  for (const auto ptype : IN_HAND) {
    const int count = state.countPiecesOnStand(side, ptype);
    if (count > 0) text += kind(ptype);
    if (count > 1) text += std::string(count > 9 ? "十" : "") + RANKS[count % 10];
    if (count > 0) text += "　";
  }
  return text + "\n";
}

std::string cell(osl::Piece piece) {
  if (piece.isEmpty()) return " ・";
  return (piece.owner() == osl::BLACK ? " " : "v") + std::string(in_one(piece.ptype()));
}

std::string diagram(const NumEffectState& state) {
  std::string text = hand(state, osl::WHITE) + "  ９ ８ ７ ６ ５ ４ ３ ２ １\n+---------------------------+\n";
  for (int y = 1; y <= 9; ++y) {
    text += "|";
    for (int x = 9; x >= 1; --x) text += cell(state.pieceAt(Square(x, y)));
    text += std::string("|") + RANKS[y] + "\n";
  }
  return text + "+---------------------------+\n" + hand(state, osl::BLACK);
}

std::string move_words(Move move, std::optional<Move> before) {
  const Square from = move.from(), to = move.to();
  std::string text = is(Trait::same, move, before) ? "同　" : std::string(FILES[to.x()]) + RANKS[to.y()];
  text += kind(move.oldPtype());
  if (move.isPromotion()) text += "成";
  if (is(Trait::declined, move, before)) text += "不成";
  return text + (move.isDrop() ? "打" : printed("(%d%d)", from.x(), from.y()));
}

// Minutes and seconds, or with an hour.
std::string figures(Rng& rng) {
  const int hour = rng.below(12), minute = rng.below(60), second = rng.below(60);
  return rng.one_in(2) ? printed("%d:%02d", minute, second) : printed("%d:%02d:%02d", hour, minute, second);
}

// A numbered line, in one of two cases with a time, and its remarks.
std::string numbered(size_t number, const std::string& words, Rng& rng) {
  std::string text = printed("%4zu ", number) + words;
  if (rng.one_in(2)) text += " (" + figures(rng) + "/" + figures(rng) + ")";
  text += "\n";
  while (rng.one_in(4)) text += std::string("*") + rng.pick(REMARKS) + "\n";
  return text;
}

// Moves as lines numbered from here on, behind the move before them, if there is one.
std::string numbered_moves(size_t number, const std::vector<Move>& moves, std::optional<Move> before, Rng& rng) {
  std::string text;
  for (const Move move : moves) {
    text += numbered(number, move_words(move, before), rng);
    before = move;
    ++number;
  }
  return text;
}

std::string head(const Game& game, Rng& rng) {
  std::string text;
  for (const auto line : HEADERS) text += rng.one_in(2) ? line : "";
  text += game.start == NumEffectState() ? "手合割：平手\n" : diagram(game.start);
  text += "手数----指手---------消費時間--\n";
  while (rng.one_in(4)) text += std::string("*") + rng.pick(REMARKS) + "\n";
  return text;
}

}  // namespace

std::string kif_text(const Game& game, Rng& rng) {
  std::string text = head(game, rng);
  text += numbered_moves(1, game.moves, {}, rng);
  const std::string ending = rng.pick(ENDINGS);
  if (!ending.empty()) text += numbered(game.moves.size() + 1, ending, rng);
  if (const auto& branch = game.branch) {
    text += "\n" + printed("変化：%zu手\n", branch->ply);
    text += numbered_moves(branch->ply, branch->moves, game.before(branch->ply), rng);
  }
  return text;
}
