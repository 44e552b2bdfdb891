#!/usr/bin/env python3
"""Writes the proofs of the exports of apa_c, crates/apa_c/proofs/apa_*/Proof.antt, but for that of apa_init.

    python3 c/walks.py       at the top of the repository; then `rt fmt` and `rt check` in crates/apa_c

Each of these exports has a pointer and numbers for parameters, casts the pointer, and calls one function of `table` with a &mut:
so their proofs differ in names, in the widths of numbers, and in the relation that holds afterwards.
"""
import os
CR='crates/apa_c'
def walk(f, g, ints, res, rel):
    # ints: list of (name, bits); res bits; rel: relation text, with value, names, r, new
    k=len(ints)
    ws=sorted({b for _,b in ints}|{res})
    def acc(root,i): return root+'.1'*i+'.0'
    def nest(items,end='tt'):
        out=end
        for it in reversed(items): out=f'({it}, {out})'
        return out
    names=[n for n,_ in ints]
    lets=''.join(f'    let {n} = {acc("a",i+1)} in let {n}-fits = {acc("are",i+1)}.1 in\n' for i,(n,_) in enumerate(ints))
    vint=' ∷ '.join([f'vint w{b} {n}' for n,b in ints]+['[]'])
    T=[]
    T.append(f'''use Rattle.std.proofs.Common.{{ℕ, List, [], ◌∷◌, ◌++◌, refl, {', '.join(f'w{b}' for b in ws)}, MutBor}}
use Rattle.std.proofs.raw_atomic.Walks.{{proved}}
use base.Fraction.{{full_share}}
use base.Logic.{{id⊢}}
use base.Fml.{{ftrue, flft, flent, fex}}
use mir.Syntax.{{named}}
use mir.Val.{{{'vint, ' if ints else ''}vptr}}
use contract.Monad.{{fact}}
use contract.Running.{{tables}}
use prog.Wp.{{WpFn}}
use types.Kit.{{‵, raw, ◌⊛◌, some, later, prop, ◌$◌, ◌∵◌, !, qed, done, move, keep, drop, use1, use3, split, join, fsplit, fjoin, fpack, pick, await, regoal, suffices, group}}
use types.Tokens.{{lft_new, lft_end}}
use types.Run.{{enter, of_opd, addr, stop, no_more, and_then, returns}}
use types.ByLocal.{{alloc_all, pass_all, free_all, look_at, get, through, sets, lands_as}}
use types.SemTy.{{Body}}
use denote.Builtin.{{{', '.join(f'u{b}' for b in ws)}}}
use denote.Exit.{{yes}}
use denote.Laws.{{Is, shows}}
use denote.Plain.{{{'uint_Makes, uint_vals, uint_Tells, ' if ints else ''}uint_Lawful}}
use denote.Memory.{{mem}}
use denote.RawPtr.{{Ptr, RawPtr, block_ptr, in_a_block, rawptr_vals, rawptr_Tells}}
use denote.Ref.{{MutRef}}
use denote.Lend.{{lends_ref, ref_back}}
use denote.Signature.{{plain}}
use denote.Steps.{{nothing, {'owned, ' if ints else ''}heard, peeks}}
use denote.Triple.Call.{{calls_at}}
use denote.Triple.Clauses.{{lasts}}
use denote.Triple.Entry.{{on_entry}}
use denote.Triple.Spec.{{triple_of}}
use denote.Triple.Table.{{framed}}
use denote.Triple.Walked.{{Stays, walk_of, stay_dropped, Goes-dropped, ends_at}}
use Rattle.apa_c.specs.Handle.{{apa_at}}
use Rattle.apa_c.specs.Calls.{{{rel.split()[0]}}}
use Rattle.apa_c.specs.declared.table.Apa.{{Apa}}
use Rattle.apa_c.specs.contracts.table.Apa.{{the_row as R}}
use Rattle.apa_c.specs.contracts.{f} as f
use Rattle.apa_c.proofs.{f}.Statement.{{statement}}
use Rattle.apa_c.proofs.{f}.Code as code
use Rattle.apa_c.specs.contracts.table.{g} as g
use Rattle.apa_c.proofs.table.{g}.Met.{{met}}

abbrev stayed : Stays f.ended.signature.params f.ended.kept
stayed = {nest(['stay_dropped _ yes']*(k+1))}

pub {f}_spec : {{M : Type 1}} → statement M
{f}_spec 𝓤 𝓛 𝓜 𝓡 wired =
    let c = f.clauses 𝓛 𝓜.mem 𝓡.returns in let W = walk_of 𝓛 f.ended stayed c in let 𝓣 = tables 𝓤 𝓛.H 𝓜 𝓡 𝓡.env in
    proved 𝓛 f.ended stayed c 𝓜 𝓡 {nest(['Goes-dropped 𝓛 0 (plain (λ _. RawPtr)) yes (λ κs x w. refl)']+[f'Goes-dropped 𝓛 0 (plain (λ _. u{b})) yes (λ κs x w. refl)' for _,b in ints])}
    f.Key.name code.function (code.unfolded 𝓤 𝓛.H 𝓜 𝓡 wired)
    (λ κs. {nest(['rawptr_vals']+[f'uint_vals w{b}' for _,b in ints])}) (λ κs. {nest(['rawptr_Tells']+[f'uint_Tells w{b}' for _,b in ints])}) (λ κs qs bounds a value are.
{lets}    let y : Ptr → W.Ghost = λ at. ((κs, qs, bounds, {nest(['at']+names)}, {nest(['rawptr_vals at']+[f'uint_vals w{b} {n}' for n,b in ints])}), value) in
    qed 𝓛 (raw (on_entry 𝓛 f.signature κs qs a (y a.0).0.4) ∷ ‵ (apa_at a.0 value) ∷ []) ∵ drop ! $
    in_a_block ! a.0 (λ p. apa_at p value) (id⊢ 𝓤 _) (λ b o e.
    regoal ! (λ p. prop (WpFn 𝓤 𝓛.H 𝓣.C 𝓣.Λ code.function (rawptr_vals p ++ ({vint})) (W.post (y p)))) e refl $
    enter ! _ _ _ _ _ $ alloc_all ! (λ l. pass_all ! refl {nest(['(tt, tt)']+[f'(tt, record {{ fits = {n}-fits }})' for n,_ in ints])} $
    lft_new ! tt (λ α. let κ : List ℕ = α ∷ [] in move ! (1 ∷ []) $
    use1 𝓛 (later (some (λ (γ : ℕ). ‵ ((MutRef (named 0) κ R).own_val (record {{ ref_ptr = (b, o); ghost_name = γ; now = value }}) (vptr b o ∷ [])) ⊛ ‵ (flent κ (Body (mem R) b o γ)))))
    (lends_ref 𝓛 R (named 0) κ value b o) $ await ! tt $ pick ! (λ γ. split ! $
    -- [the loan; what the lender keeps; the token]
    sets ! (of_opd ! (get ! refl)) refl (tt, tt) $
    sets ! (addr ! (through ! refl (stop !))) refl (tt, tt) $
    let G = triple_of 𝓛 g.signature (g.spec 𝓛 𝓜.mem 𝓡.returns) in
    let lent : MutBor Apa = record {{ ref_ptr = (b, o); ghost_name = γ; now = value }} in
    let z : G.Ghost = (((κ, tt), (full_share, tt), tt, {nest(['lent']+names)}, {nest(['vptr b o ∷ []']+[f'vint w{b} {n} ∷ []' for n,b in ints])}), tt) in
    nothing ! $ {''.join(f'owned ! u{b} _ (uint_Makes 𝓛 w{b}) {n} _ (refl, {n}-fits) $ fjoin ! $ ' for n,b in reversed(ints))}move ! (1 ∷ 0 ∷ []) $ fjoin ! $
    nothing ! $ move ! (3 ∷ 0 ∷ []) $ join ! $ join ! $ nothing ! $ move ! (1 ∷ 0 ∷ []) $ join ! $ use1 𝓛 (raw (G.pre z)) (id⊢ 𝓤 _) $
    calls_at ! (framed 𝓤 𝓛.H 𝓜 (tables 𝓤 𝓛.H 𝓜 𝓡 𝓡.env)) G (met 𝓤 𝓛 𝓜 𝓡 (code.calls-apa_c::table::{g} 𝓡.env wired)) z
    ({'and_then ! (get ! refl) ('*(k+1)}no_more !{')'*(k+1)}) (λ v.
    use1 𝓛 (later (some (λ (r : ℕ). ((‵ (flft κ full_share) ⊛ ‵ ftrue) ⊛ ‵ (u{res}.own_val r (v ∷ []))) ⊛
    some (λ (ws : Apa × {'(Unit {0} × '*k}Unit {{0}}{')'*k}). ‵ (lasts g.ended z.0.0 z.0.3 ws) ⊛ raw (fact 𝓤 ({rel.replace('new','ws.0')})))))) (id⊢ 𝓤 _) $
    await ! tt $ pick ! (λ r. split ! $ split ! $ split ! $ lft_end ! tt $ move ! (2 ∷ []) $
    peeks ! u{res} (Is u{res}) (shows 𝓛 u{res}) r (v ∷ []) (λ is. lands_as ! refl refl ((uint_Lawful 𝓛 w{res}).typed r _ is).0 $
    -- [the result; α is over; nothing; the rest; what the lender keeps]
    move ! (3 ∷ []) $ pick ! (λ ws. let after : Apa = ws.0 in split ! $ move ! (1 ∷ []) $ heard ! _ (λ holds. fsplit ! $ fsplit ! $
    -- [its last value; its borrow; nothing; the result; α is over; nothing; what the lender keeps]
    move ! (4 ∷ 6 ∷ 0 ∷ []) $ use3 𝓛 (later (‵ ((mem R).own_at after b o))) (ref_back 𝓛 R κ γ after b o) $ await ! tt $
    use1 𝓛 (‵ (apa_at (block_ptr b o) after)) (id⊢ 𝓤 _) $
    fpack ! ({rel.replace('new','after')}) (λ _. apa_at (block_ptr b o) after) holds $
    fpack ! Apa (λ x. fex ({rel.replace('new','x')}) (λ _. apa_at (block_ptr b o) x)) after $
    returns ! (look_at ! 0 refl) $ free_all ! refl $ keep ! (3 ∷ 0 ∷ []) $
    suffices ! _ (ends_at 𝓛 f.ended stayed c (y (block_ptr b o)) v r {nest(['tt']*(k+1))} {nest(['tt']*(k+1))}) $
    nothing ! $ {'nothing ! $ join ! $ '*(k+1)}nothing ! $ group ! 3 $ done !)))))))))))))))))))''')
    s='\n'.join(T)
    import re
    code=re.sub(r'--[^\n]*','',s)
    d=code.count('(')-code.count(')')
    s=s.rstrip()
    s = s[:len(s)+d] if d<0 else s+')'*d
    os.makedirs(f'{CR}/proofs/{f}',exist_ok=True)
    open(f'{CR}/proofs/{f}/Proof.antt','w').write(s+'\n')
walk('apa_open', 'open', [('processors', 32)], 32, 'Opened value processors r new')
walk('apa_add_task', 'add_task', [('priority', 32), ('mask', 64)], 32, 'Added value priority mask r new')
walk('apa_start', 'start', [], 32, 'Started value r new')
walk('apa_apply', 'apply', [('kind', 32), ('number', 32), ('mask', 64)], 32, 'Applied value kind number mask r new')
walk('apa_admit', 'admit', [('priority', 32), ('mask', 64)], 32, 'Admitted value priority mask r new')
walk('apa_retire', 'retire', [('task', 32)], 32, 'Retired value task r new')
walk('apa_set_priority', 'set_priority', [('task', 32), ('priority', 32)], 32, 'Reordered value task priority r new')
walk('apa_seen', 'seen', [('task', 32), ('place', 32)], 32, 'Seen value task place r new')
walk('apa_lost', 'lost', [], 32, 'Lost value r new')
walk('apa_help', 'help', [], 32, 'Helped value r new')
walk('apa_close', 'close', [], 32, 'Closed value r new')
walk('apa_on', 'on', [('place', 32)], 32, 'OnAnswer value place r new')
walk('apa_of', 'of', [('task', 32)], 32, 'OfAnswer value task r new')
walk('apa_is_ready', 'is_ready', [('task', 32)], 32, 'ReadyAnswer value task r new')
walk('apa_mask', 'mask', [('task', 32)], 64, 'MaskAnswer value task r new')
walk('apa_occupied', 'occupied', [], 64, 'OccupiedAnswer value r new')
walk('apa_on_line', 'on_line', [], 64, 'OnLineAnswer value r new')
walk('apa_moves', 'moves', [], 32, 'CountAnswer value r new')
walk('apa_whole_move', 'whole_move', [('i', 32)], 64, 'MoveAnswer value i r new')
walk('apa_reached', 'reached', [], 64, 'SetAnswer value r new')
walk('apa_back', 'back', [], 64, 'BackAnswer value r new')
