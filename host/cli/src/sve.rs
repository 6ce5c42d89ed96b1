//! The names of SVE's instructions that are not executed here, as LLVM 22 prints and takes them for SVE, SVE2 and SVE2p1.

/// Those of SVE alone.
const ALONE: &str = "\
    adclb adclt addhnb addhnt addpl addqv addvl andqv andv asrd asrr bdep bext bfadd bfclamp bfcvtnt bfmax bfmaxnm \
    bfmin bfminnm bfmla bfmls bfmlslb bfmlslt bfmul bfsub bgrp brka brkas brkb brkbs brkn brkns brkpa brkpas brkpb \
    brkpbs bsl1n bsl2n cadd cdot clasta clastb cmla cmpeq cmpge cmpgt cmphi cmphs cmple cmplo cmpls cmplt cmpne cnot \
    cntb cntd cnth cntw compact cpy ctermeq ctermne decb decd dech decw dupm dupq eorbt eorqv eortb eorv extq facle \
    faclt fadda faddqv faddv fclamp fcmne fcmuo fcpy fcvtlt fcvtnt fcvtx fcvtxnt fdivr fdot fdup fexpa flogb fmad \
    fmaxnmqv fmaxqv fminnmqv fminqv fmlalb fmlalt fmlslb fmlslt fmmla fmsb fnmad fnmla fnmls fnmsb fscale fsubr \
    ftmad ftsmul ftssel histcnt histseg incb incd inch incw index insr lasta lastb ld1b ld1d ld1h ld1q ld1rb ld1rd \
    ld1rh ld1rob ld1rod ld1roh ld1row ld1rqb ld1rqd ld1rqh ld1rqw ld1rsb ld1rsh ld1rsw ld1rw ld1sb ld1sh ld1sw ld1w \
    ld2b ld2d ld2h ld2q ld2w ld3b ld3d ld3h ld3q ld3w ld4b ld4d ld4h ld4q ld4w ldff1b ldff1d ldff1h ldff1sb ldff1sh \
    ldff1sw ldff1w ldnf1b ldnf1d ldnf1h ldnf1sb ldnf1sh ldnf1sw ldnf1w ldnt1b ldnt1d ldnt1h ldnt1sb ldnt1sh ldnt1sw \
    ldnt1w lslr lsrr mad match movprfx msb nbsl nmatch orqv orv pext pmov pmullb pmullt prfb prfd prfh prfw psel \
    ptrue ptrues punpkhi punpklo raddhnb raddhnt rdvl revb revd revh revw rshrnb rshrnt rsubhnb rsubhnt sabalb \
    sabalt sabdlb sabdlt saddlb saddlbt saddlt saddv saddwb saddwt sbclb sbclt sclamp sdivr shrnb shrnt shsubr \
    smaxqv sminqv smlalb smlalt smlslb smlslt smullb smullt splice sqcadd sqcvtn sqcvtun sqdecb sqdecd sqdech sqdecw \
    sqdmlalb sqdmlalbt sqdmlalt sqdmlslb sqdmlslbt sqdmlslt sqdmullb sqdmullt sqincb sqincd sqinch sqincw sqrdcmlah \
    sqrshlr sqrshrnb sqrshrnt sqrshrunb sqrshrunt sqshlr sqshrnb sqshrnt sqshrunb sqshrunt sqsubr sqxtnb sqxtnt \
    sqxtunb sqxtunt srshlr sshllb sshllt ssublb ssublbt ssublt ssubltb ssubwb ssubwt st1b st1d st1h st1q st1w st2b \
    st2d st2h st2q st2w st3b st3d st3h st3q st3w st4b st4d st4h st4q st4w stnt1b stnt1d stnt1h stnt1w subhnb subhnt \
    subr sunpkhi sunpklo tblq tbxq uabalb uabalt uabdlb uabdlt uaddlb uaddlt uaddv uaddwb uaddwt uclamp udivr uhsubr \
    umaxqv uminqv umlalb umlalt umlslb umlslt umullb umullt uqcvtn uqdecb uqdecd uqdech uqdecw uqincb uqincd uqinch \
    uqincw uqrshlr uqrshrnb uqrshrnt uqshlr uqshrnb uqshrnt uqsubr uqxtnb uqxtnt urshlr ushllb ushllt usublb usublt \
    usubwb usubwt uunpkhi uunpklo uzpq1 uzpq2 whilerw whilewr zipq1 zipq2";

/// Those that other parts of A64 have too: with a vector or a predicate they are SVE's.
const SHARED: &str = "\
    abs add addp adr aesd aese aesimc aesmc asr bcax bfcvt bfcvtn bfdot bfmlalb bfmlalt bfmmla bsl cls clz cnt dup \
    eor3 ext fabd fabs facge facgt fadd faddp fcadd fcmeq fcmge fcmgt fcmla fcmle fcmlt fcvt fcvtzs fcvtzu fdiv fmax \
    fmaxnm fmaxnmp fmaxnmv fmaxp fmaxv fmin fminnm fminnmp fminnmv fminp fminv fmla fmls fmov fmul fmulx fneg frecpe \
    frecps frecpx frinta frinti frintm frintn frintp frintx frintz frsqrte frsqrts fsqrt fsub ldr lsl lsr mla mls \
    mul neg pmul rax1 rbit rev saba sabd sadalp scvtf sdiv sdot shadd shsub sli sm4e sm4ekey smax smaxp smaxv smin \
    sminp sminv smmla smulh sqabs sqadd sqdmulh sqneg sqrdmlah sqrdmlsh sqrdmulh sqrshl sqrshrn sqrshrun sqshl \
    sqshlu sqsub srhadd sri srshl srshr srsra ssra str sub sudot suqadd sxtb sxth sxtw tbl tbx trn1 trn2 uaba uabd \
    uadalp ucvtf udiv udot uhadd uhsub umax umaxp umaxv umin uminp uminv ummla umulh uqadd uqrshl uqrshrn uqshl \
    uqsub urecpe urhadd urshl urshr ursqrte ursra usdot usmmla usqadd usra uxtb uxth uxtw uzp1 uzp2 xar zip1 zip2";

/// Those that are executed on predicates: with a vector they are not.
const OF_VECTORS: &str = "and bic decp eor incp mov not orr sel sqdecp sqincp uqdecp uqincp";

/// Whether an instruction of SVE has this name, in small letters, and may have these operands, and it is none of ours.
pub fn is_elsewhere<'a>(name: &str, operands: impl Iterator<Item = &'a str> + Clone) -> bool {
    let among = |names: &str| names.split_whitespace().any(|known| known == name);
    let has = |letter| operands.clone().any(|operand| is_register(operand, letter));
    among(ALONE) || among(SHARED) && (has('z') || has('p')) || among(OF_VECTORS) && has('z')
}

/// `z0` or `Z0.s` for the letter `z`.
fn is_register(operand: &str, letter: char) -> bool {
    let mut chars = operand.chars();
    chars.next().is_some_and(|first| first.eq_ignore_ascii_case(&letter))
        && chars.next().is_some_and(|c| c.is_ascii_digit())
}

#[cfg(test)]
mod tests {
    use super::*;
    use crate::syntax::table;

    fn elsewhere(text: &str) -> bool {
        let mut words = text.split([' ', ',']).filter(|word| !word.is_empty());
        is_elsewhere(words.next().unwrap(), words)
    }

    #[test]
    fn by_name_and_operands() {
        let yes = [
            "ptrue p0.b",
            "brka p1.b, p0/z, p2.b",
            "cntb x0",
            "add z0.s, z1.s, z2.s",
            "and z0.d, z1.d, z2.d",
            "rev p0.b, p1.b",
        ];
        yes.iter().for_each(|text| assert!(elsewhere(text), "{text}"));
        let no = [
            "ret",
            "b loop",
            "add x0, x1, x2",
            ".text",
            "b.first loop",
            "ptrou p0.b",
            "and x0, x1, x2",
            "incp x0, p1.b",
        ];
        no.iter().for_each(|text| assert!(!elsewhere(text), "{text}"));
    }

    /// What is executed here is among them with vectors alone.
    #[test]
    fn none_of_ours() {
        let names = || table().iter().map(|syntax| syntax.mnemonic);
        assert!(names().all(|name| !elsewhere(&format!("{name} p0.b, p1/z, p2.b, x0"))));
        let ours: Vec<&str> = names().collect();
        assert!(OF_VECTORS.split(' ').all(|name| ours.contains(&name)));
    }
}
