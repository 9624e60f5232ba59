//! The calls by name, as the binding has them: along random runs each answers and leaves the memory as the call by its number does, whatever
//! stands in the words that it does not take.
use crate::pair::Pair;
use crate::Verdict;
use okrozumba::{call, Answer, Context, State};
use second::plain::CALLS;
use second::random::Random;
use second::script::{self, Author, Size, SIZES};

const RUNS: u32 = 60;
const EVENTS: u32 = 100;

type Named = (i32, fn(&mut State, Context, i32, i32, i32) -> Answer);

const NAMED: [Named; CALLS as usize] = [
    (call::STA_TSK, |k, x, a, _, _| k.sta_tsk(x, a)),
    (call::EXT_TSK, |k, x, _, _, _| k.ext_tsk(x)),
    (call::TER_TSK, |k, x, a, _, _| k.ter_tsk(x, a)),
    (call::CHG_PRI, |k, x, a, b, _| k.chg_pri(x, a, b)),
    (call::ROT_RDQ, |k, x, a, _, _| k.rot_rdq(x, a)),
    (call::REL_WAI, |k, x, a, _, _| k.rel_wai(x, a)),
    (call::SUS_TSK, |k, x, a, _, _| k.sus_tsk(x, a)),
    (call::RSM_TSK, |k, x, a, _, _| k.rsm_tsk(x, a)),
    (call::SLP_TSK, |k, x, _, _, _| k.slp_tsk(x)),
    (call::WAI_TSK, |k, x, a, _, _| k.wai_tsk(x, a)),
    (call::WUP_TSK, |k, x, a, _, _| k.wup_tsk(x, a)),
    (call::CAN_WUP, |k, x, a, _, _| k.can_wup(x, a)),
    (call::SIG_SEM, |k, x, a, _, _| k.sig_sem(x, a)),
    (call::WAI_SEM, |k, x, a, _, _| k.wai_sem(x, a)),
    (call::PREQ_SEM, |k, x, a, _, _| k.preq_sem(x, a)),
    (call::SET_FLG, |k, x, a, b, _| k.set_flg(x, a, b as u32)),
    (call::CLR_FLG, |k, x, a, b, _| k.clr_flg(x, a, b as u32)),
    (call::WAI_FLG, |k, x, a, b, c| k.wai_flg(x, a, b as u32, c)),
    (call::POL_FLG, |k, x, a, b, c| k.pol_flg(x, a, b as u32, c)),
    (call::SND_MSG, |k, x, a, b, _| k.snd_msg(x, a, b)),
    (call::RCV_MSG, |k, x, a, _, _| k.rcv_msg(x, a)),
    (call::PRCV_MSG, |k, x, a, _, _| k.prcv_msg(x, a)),
    (call::GET_BLK, |k, x, a, _, _| k.get_blk(x, a)),
    (call::PGET_BLK, |k, x, a, _, _| k.pget_blk(x, a)),
    (call::REL_BLK, |k, x, a, b, _| k.rel_blk(x, a, b)),
    (call::GET_TID, |k, x, _, _, _| k.get_tid(x)),
    (call::TSK_STS, |k, x, a, _, _| k.tsk_sts(x, a)),
    (call::SEM_STS, |k, x, a, _, _| k.sem_sts(x, a)),
    (call::FLG_STS, |k, x, a, _, _| k.flg_sts(x, a)),
    (call::MBX_STS, |k, x, a, _, _| k.mbx_sts(x, a)),
    (call::MPL_STS, |k, x, a, _, _| k.mpl_sts(x, a)),
    (call::GET_TIM, |k, x, _, _, _| k.get_tim(x)),
    (call::CRE_TSK, |k, x, a, b, _| k.cre_tsk(x, a, b)),
    (call::DEL_TSK, |k, x, a, _, _| k.del_tsk(x, a)),
    (call::EXD_TSK, |k, x, _, _, _| k.exd_tsk(x)),
    (call::SET_ABS, |k, x, a, b, c| k.set_abs(x, a, b, c)),
    (call::SET_REL, |k, x, a, b, c| k.set_rel(x, a, b, c)),
    (call::CAN_ALM, |k, x, a, _, _| k.can_alm(x, a)),
    (call::ALM_STS, |k, x, a, _, _| k.alm_sts(x, a)),
];

/// How often each call was not refused.
type Done = [u64; NAMED.len()];

fn same(done: &mut Done, pair: &Pair, context: Context, [a, b, c]: [i32; 3]) -> Result<(), String> {
    for (times, (number, by_name)) in done.iter_mut().zip(NAMED) {
        let (mut ours, mut theirs) = (pair.kernel.clone(), pair.kernel.clone());
        let got = by_name(&mut ours, context, a, b, c);
        let expected = theirs.call(context.number(), number, a, b, c);
        if got != expected || ours != theirs {
            return Err(pair.difference(&format!("call {number} by name"), got, expected));
        }
        *times += u64::from(got.done().is_ok());
    }
    Ok(())
}

fn run(done: &mut Done, random: &mut Random, size: Size) -> Result<(), String> {
    let mut pair = Pair::fresh(&script::setup(random, size))?;
    let mut author = Author::default();
    for _ in 0..EVENTS {
        let event = author.event(random, &pair.plain);
        pair.event(event)?;
        let words = [(); 3].map(|_| random.below(8) as i32 - 1);
        let context = random.pick(&[Context::Task, Context::Handler]);
        same(done, &pair, context, words)?;
    }
    Ok(())
}

pub fn check() -> Verdict {
    let mut done: Done = [0; NAMED.len()];
    for seed in 0..RUNS {
        let size = SIZES[seed as usize % SIZES.len()];
        run(&mut done, &mut Random::new(u64::from(seed)), size)
            .map_err(|d| format!("seed {seed}: {d}"))?;
    }
    let mut numbered = NAMED.iter().zip(done);
    if let Some(((number, _), _)) = numbered.find(|(_, times)| *times == 0) {
        return Err(format!("call {number} was always refused"));
    }
    Ok(format!("{CALLS} calls, each from {} states", RUNS * EVENTS))
}
