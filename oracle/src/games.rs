//! Game records in the style of published ones, and positions in them that another program made of the same moves.   (02, i)

use crate::judge::{self, Outcome};
use crate::record::decode;
use crate::replay::pieces;
use crate::rng::Rng;
use crate::sfen;

/// Line, entry, and the position after it.
type Known = (u64, u64, &'static str);

/// Each game's text, and some of its positions as OpenShogiLib shows them after the same moves, which are all legal. The main line's
/// last entry is its ending. The games have 同, drops, promotions and captures of promoted pieces, and most have variations of which
/// the second hangs on the first; the last four begin with a diagram: two handicaps, a problem and the middle of a game.
const GAMES: [(&str, &[Known]); 14] = [
    (
        include_str!("../games/bishops.kif"),
        &[
            (0, 27, "l2g1g1nl/1r3k3/2nsppspp/p1pp2p2/1p7/P1P2PPP1/1PSPPSN1P/2GK1G1R1/LN6L w Bb"),
            (0, 54, "3b2k1l/lr2g4/2nsg1npp/p1ppppps1/1p7/P1PP1PPPP/1PN1PSN1L/LSG3G2/4KB2R b -"),
            (0, 83, "1r1b1g3/7k1/l1ng2npl/p1ppsppsp/1p2p4/P1PP1PPPP/LPN1PGN1L/2G1B4/2SSK3R b -"),
            (1, 4, "8l/lr2g2k1/1bnsg1np1/p1pppppsp/1p7/P1PPSPPPP/LPN1P1N1L/1SG3G2/4KB2R w -"),
            (2, 0, "3b4l/lrs1g2k1/2n1g1npp/p1ppppps1/1p7/P1PP1PPPP/LPN1PSN1L/1SG6/4KBG1R b -"),
            (3, 1, "3b2k1l/lr3g3/2nspgnpp/p1pp1pps1/1p7/P1PP1PPPP/1P1BPSN1L/LSG3G2/1N2K3R w -"),
        ],
    ),
    (
        include_str!("../games/sidepawn.kif"),
        &[
            (0, 27, "ln1g2snl/1rs1k1gp1/2ppppb1p/p8/9/2P4R1/PP1PPPP1P/1BG1K1S1L/LNS2G1N1 w 2Pp"),
            (0, 54, "lngs1ksn1/1r4bpl/4+Np2p/p1pp5/1p3gpP1/P1PP3RB/1P2PKP1P/2G1G1S1L/L1S2P1N1 b P"),
            (0, 82, "1n1+B1ksn1/l1g3bp1/1g2r3l/p1pp1p1P1/1p3gp1p/P1PP3R1/LP1GP1PSP/3S4L/4NPKN1 w SP"),
            (1, 4, "ln1gk1snl/1rs3bp1/2pppp2p/p8/1p3P1P1/P1PP4g/1P2P1P1P/2G1KGS1L/LNS4N1 b Prb"),
            (2, 0, "ln1gk1snl/1rs3bp1/2pppp2p/p8/1p3PgP1/2PP3RB/PP2P1P1P/2G1KGS1L/LNS4N1 w P"),
            (3, 1, "lnsg2snl/1r2k1gp1/p1ppppb1p/1p7/9/P1P4R1/1P1PPPP1P/1BG6/LNS1KGSNL b 2P"),
        ],
    ),
    (
        include_str!("../games/fourthfile.kif"),
        &[
            (0, 14, "ln1g1gsnl/1r1s2kb1/p1pp1p1pp/4p1p2/1p7/2PP5/PP2PPPPP/1BSR3K1/LN1G1GSNL b -"),
            (0, 28, "ln3g1nl/1r2g1ks1/p1p+P1p1pp/4p1p2/bp7/2P6/PPS1PPPPP/3RG1SK1/LN3G1NL b BSP"),
            (0, 44, "1n5nl/lr2g2s1/p1p2p2p/4p2pk/Sp4+R1G/2P6/PPSBPPPPP/4G1SK1/LN3G1NL w B3P"),
        ],
    ),
    (
        include_str!("../games/castles.kif"),
        &[
            (0, 32, "ln5nl/1r1s2gk1/p1ppbgspp/1p2ppp2/9/2PPPBPP1/PPSG1PS1P/2G4R1/LNK4NL b -"),
            (0, 64, "+L+N2sgkn1/1+B5s1/4bg1pl/2+Rpp1p1p/5p1P1/2PPP1P2/PPS1GPS1P/L1GK3R1/1N5NL b 3P"),
            (0, 97, "+L+N1+R5/5sg1k/+B+P1+P1gnp1/3Ppb2s/6pPl/P1P1PGP1p/2S2P1RP/L1GK1S3/1N5NL b 4P"),
            (1, 4, "+L+N2sgk2/1+B6s/4b1npl/2+Rppgp1p/PP3p1P1/2PPP1P2/2S1GP2P/L1GK1S1R1/1N5NL w 3P"),
            (2, 0, "+L+N2sgkn1/1+B3b2s/5g1pl/2+Rpp1p1p/1P3p1P1/2PPP1P2/P1S1GP2P/L1GK1S1R1/1N5NL b 3P"),
            (3, 1, "ln4knl/1r1s2g2/p1pp1gspp/1p1bp1p2/5p3/2PPP1PP1/PPS1GPS1P/2G4R1/LNBK3NL b -"),
        ],
    ),
    (
        include_str!("../games/floating.kif"),
        &[
            (0, 28, "ln1gk1snl/1rs3gb1/2p1pp1pp/p2p2p2/5S3/P1P6/1P1PPPP1P/1BG4R1/LNS1KG1NL b Pp"),
            (0, 56, "1n1g3nl/l2k2+B2/s3gp1pp/p1ppp4/1r4pP1/P1P1S2RP/LP1PPPP2/2GSK1G2/1N5NL b BSP"),
            (0, 86, "sk6+B/l2g5/n4p1+B1/pgppp4/1r4pP1/P1PPSP1RP/LPS1P1P1N/NSG1K1G1L/LN7 w 3P"),
            (1, 2, "3g4+B/ls1kg4/2n2p1pp/p1ppp4/1r4pP1/P1P1S2RP/LP1PPPP2/1LGSK1G2/1N5NL b BSNP"),
            (2, 0, "3g4+B/ls1k5/2n1gp1pp/p1ppp4/1r4pP1/P1P1S2RP/LP1PPPP2/S1GSK1G2/1N5NL w BNLP"),
            (3, 1, "lnsgk1snl/6gb1/prppppp1p/7R1/1p7/9/PPPPPPP1P/1BG4S1/LNS1KG1NL w Pp"),
        ],
    ),
    (
        include_str!("../games/centre.kif"),
        &[
            (0, 25, "1n2ggsnl/lr1s1k1b1/p2ppp1p1/2p3p1p/1p7/2P1PPP2/PPBPS1NPP/4R1SK1/LN1G1G2L w -"),
            (0, 51, "1n1s2sn1/1r2gk1b1/l2pgp1p1/p1p1p1p1l/1p5Np/P1P1PPPP1/LPBPRS2P/3S1G2L/1N1G4K w -"),
            (0, 78, "4g2+B+B/2s1ks3/l2p1p1+N1/prpgp1p2/1p3P2p/P1P1P1PP1/LP1PGS2P/1N5KL/LN1GSr3 w NP"),
            (1, 5, "1n2k1sn1/1r1sg2b1/l3gp1p1/p1ppp1p1l/1p5Np/P1P1PPPP1/NPBPR3P/L2S1GS1L/3G3K1 b -"),
            (2, 0, "1n4sn1/1r1sgk1b1/l2pgp1p1/p1p1p1p1l/1p5Np/P1P1PPPP1/NPBPRS2P/L2S1G3/3G3KL b -"),
            (3, 1, "ln1g1g1nl/1r1s1skb1/p1pppp1pp/6p2/1p7/P1P1P4/1PBP1PPPP/4R1K2/LNSG1GSNL b -"),
        ],
    ),
    (
        include_str!("../games/oddbishop.kif"),
        &[
            (0, 22, "1nsg1g1nl/lr2bk3/2pppps+Bp/p8/1p5p1/P1P5P/1P1PPPPP1/L1RS5/1N1GKGSNL b P"),
            (0, 45, "1n4kn1/1r2b1g1l/lsgp1p2p/p1p1ps3/1p5+BP/P1PPPP3/LP2S1PP1/2R3S1L/1NG1K1GN1 w 2P"),
            (0, 69, "3G2k2/1r4g1l/lsnp1p2p/pbp1psN2/1p5BP/+r1PPPPP2/4S2PL/2+n2KS2/6GN1 b 2Pgl2p"),
        ],
    ),
    (
        include_str!("../games/thirdfile.kif"),
        &[
            (0, 26, "+R2g1gknl/7s1/p1+Bppp1p1/2p3p1p/9/1p7/P+b1PPPPPP/2R2K3/LNSG1GSNL b SNL2p"),
            (0, 52, "+L1G1g1k2/1P+S4sl/2N+Rp4/2+B2p1pp/p2p5/1p4p2/P+b1PPP1PP/2R4K1/LNSG1GSNL b N2Pp"),
            (0, 80, "+L+NG1+N3s/1P+SG5/3+R4k/2+B2p2p/p1Ppp1p2/1p4n2/P+b1PPPKPP/2R3G2/LNSG2S1L w L2Pp"),
            (1, 3, "+L+NG1g1k1l/2+S6/3+Rp3s/2+B2p1pp/p2p2pn1/1p7/P+b1PPPPPP/2R2K3/LNSG1GSNL b 3P"),
            (2, 0, "+L1G1g1k1l/2+S4s1/N2+Rp4/2+B2p1pp/p2p2pn1/1p7/P+b1PPPPPP/2R2K3/LNSG1GSNL b 3P"),
            (3, 1, "lnsgkgsnl/1r5b1/p1pp1p1pp/4p1p2/1pP6/9/PP1PPPPPP/1BR3S2/LNSGKG1NL b -"),
        ],
    ),
    (
        include_str!("../games/devil.kif"),
        &[
            (0, 22, "ln1gkg1nl/1rn6/p1p2pspp/1p1p2p2/b1P1s4/9/PP1PPPPPP/R4K2L/L1SG1GSN1 b Pb"),
            (0, 44, "ln1gkg1n1/1rn4sl/3+S1p1pp/pppp2p2/2+b1P4/1P4PPP/P2+bpP2N/R5K1L/L1S1GGS2 b Pp"),
            (0, 68, "ln1gkg1n1/1rn4s1/3+S+P2pl/+b2p2p1p/pp7/1+bp1PPPPP/P1+p1p1K1N/R7L/L1SPGG2S w p"),
        ],
    ),
    (
        include_str!("../games/edge.kif"),
        &[
            (0, 25, "lnsg1gs+B1/1r7/p1ppk2pp/6p2/Pp1P5/2P6/1P+b1PPPPP/4K2R1/+n1SG1GSNL w Pn2lp"),
            (0, 50, "ln1g1gs+B1/1s7/p1ppkpRpp/6p2/Pp1P5/6P2/1+l2PP1PP/s1+b1K1G1R/+ng1+n2SNL b l3p"),
            (0, 77, "ln1g1g1+B1/1s3s3/p1ppkp2+R/1P4p2/P1PPp4/1p3PPPP/+s2+bP2GN/1+l1+l1K2R/+ng1+n2S1L b Pp"),
            (1, 4, "ln1g1gs+B1/1s3k3/p1pp3pp/6p2/Pp1PR4/1l4P2/1+s2PP1PP/2+b1K1G1R/+ng1+n2SNL b l4p"),
            (2, 0, "lnsg1gs+B1/1r7/pPppk2pp/6p2/Pp1P5/1l4P2/1+s2PP1PP/2+b2KG1R/+ng1+n2SNL w l3p"),
            (3, 1, "lnsg1gs+B1/1r7/p1ppk2pp/6p2/Pp1P5/2+b2P3/1P2P1PPP/7R1/+n1SGKGSNL w Pn2l2p"),
        ],
    ),
    (
        include_str!("../games/twopieces.kif"),
        &[
            (0, 25, "1n1g2sn1/l3k1g1l/4spp1p/1pppp2p1/p4PP2/2PPP1S2/PP5PP/LB2G2R1/1NSGK2NL b -"),
            (0, 51, "4g2n1/3s4l/2nksppgp/lpppp2p1/p4PP1P/1PPPPS1PL/P1N1G1N2/L2S3R1/2BGK4 b -"),
            (0, 78, "2k1s1gn1/2s5l/2n2ppgp/l1ppp2p1/pP3PP1P/2PPPS1PL/P1NG2N2/L1GR5/BS2K4 b P"),
            (1, 4, "1n1g3n1/3sks2l/5ppg1/lpppp2pp/p4PP2/1PPPP2PP/P1NG1SN2/L2S5/2BGK2RL w -"),
            (2, 0, "1n2g2n1/4ks2l/3s1ppgp/lpppp2p1/p4PP2/1PPPP2PP/P2G1SN2/L2S3R1/1NBGK3L b -"),
            (3, 1, "ln1g2snl/4k1g2/1p2spp2/p1ppp2pp/5PP2/2P3SP1/PP1PP3P/LB5R1/1NSGKG1NL w -"),
        ],
    ),
    (
        include_str!("../games/sixpieces.kif"),
        &[
            (0, 23, "1s1g1g3/5k3/+L1p1p3+B/1p1p1pp2/7S1/2P6/1P1PPPPPP/7R1/1NSGKGSNL b 4P"),
            (0, 47, "3+B5/1s7/2pkp3g/1+L3p3/3G3S1/1PP2P1P1/P2PP1P1P/7R1/1NSGKGSNL b 6P"),
            (0, 72, "3+B1+P+P2/ps3P3/2pk4g/4p4/1+LPG3S1/1P1P+p2P1/P1N3P1P/2S1P2R1/3GKGSNL b 3P"),
            (1, 4, "1s1+B5/9/+L1pkp3g/5p3/1pPG3S1/PP3P3/3PP1PPP/7R1/1NSGKGSNL w 5P"),
            (2, 0, "1s1+B5/9/1+Lpkp1g2/1p3p3/2PG3S1/1P3P3/P2PP1PPP/7R1/1NSGKGSNL b 5P"),
            (3, 1, "1s1+B5/9/+L1p1p3g/1p2kp3/3p5/1PP1G1S2/P2PPPPPP/7R1/1NSGKGSNL b 4P"),
        ],
    ),
    (
        include_str!("../games/problem.kif"),
        &[
            (0, 5, "4k1p+R1/9/4R4/4+P4/9/9/9/9/4K4 w GS2NP2b3g3s2n4l15p"),
            (0, 10, "4kp+R2/4p4/2+R6/4+P4/9/1b7/9/9/4K4 b GS2N2Pb3g3s2n4l13p"),
            (0, 16, "3k1pb2/3Sp4/2+RN5/4+P4/9/9/9/4K4/9 w GN2Prb3g3s2n4l13p"),
            (1, 2, "3k1p+R2/4p4/3+R1N3/4+P4/9/9/9/9/4K4 w GSN2P2b3g3s2n4l13p"),
            (2, 0, "5p+R2/3kp4/4RN3/4+P4/9/9/9/9/4K4 b GSN2P2b3g3s2n4l13p"),
            (3, 1, "2Rpk2pR/9/9/4+P4/9/9/9/9/4K4 b GS2N2b3g3s2n4l15p"),
        ],
    ),
    (
        include_str!("../games/late.kif"),
        &[
            (0, 20, "1ng3gnl/lks2r3/6b1p/pppppppp1/9/PPsSPPPGP/L2PRS1P1/1BK1G4/1N5NL w p"),
            (0, 40, "1n4g1l/1k1g1r1b1/l1s3n1p/pppppppp1/8P/P+s1SPPPPG/L2PSR2N/3G5/BNK5L w 2p"),
            (0, 62, "6g2/s1k1g1rbl/l1n3n1p/pppppppp1/8P/P2SPPPPG/L2+sSR2N/7GL/BNK6 b 3p"),
            (1, 3, "1n4g1l/1k3r1b1/l1s2gn1p/pppppppp1/8P/P+s1SPPPPG/L2PS3N/1B1G5/1NK2R2L w 2p"),
            (2, 0, "1n4g1l/1k3r1b1/l1s1g1n1p/pppppppp1/8P/P+s1SPPPPG/L2PSR2N/2G6/BNK5L w 2p"),
            (3, 1, "1n4gnl/1kg2r1b1/l1s5p/pppppppp1/8P/PPsSPPPPG/L2PRS2N/1BKG5/1N6L b p"),
        ],
    ),
];

/// The positions are those known; and each entry of each line has one, with as many pieces as there are at the start, 40 in 平手.
pub fn games() {
    for (text, known) in GAMES {
        let block = read(text);
        for &(line, entry, sfen) in known {
            assert_eq!(position(&block, line, entry), sfen::position(sfen), "{line} {entry} of {text}");
        }
        let count = if text.contains("手合割：平手") { 40 } else { pieces(&block[28..128]) };
        for (line, (_, entries)) in (0..).zip(decode(&block).expect("the reader's block").shape()) {
            let counts = (0..entries as u64).map(|entry| pieces(&position(&block, line, entry)));
            assert!(counts.into_iter().all(|pieces| pieces == count), "line {line} of {text}");
        }
    }
}

/// The block of any of them.
pub fn block(r: &mut Rng) -> Vec<u8> {
    read(GAMES[r.below(GAMES.len())].0)
}

fn read(text: &str) -> Vec<u8> {
    match judge::fill(text.as_bytes()) {
        Outcome::Made { result, answer } if answer.first == text.len() as u64 => result,
        other => panic!("not wholly taken: {other:?} {text}"),
    }
}

fn position(block: &[u8], line: u64, entry: u64) -> Vec<u8> {
    match judge::position(block, line, entry) {
        Outcome::Made { result, .. } => result,
        refused => panic!("{line} {entry}: {refused:?}"),
    }
}
