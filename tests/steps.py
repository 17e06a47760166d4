"""Computes the scenarios of vectors/scenarios.txt on the definitions of the steps (crates/walk_steps/specs/steps/Steps.antt).

steps.py --crates: prints the crates that the definitions need.
steps.py ROOT: writes into ROOT, which has vectors/ and a copy of those crates, a crate `scenarios` without functions: a run over the definitions, and for each
scenario the statement that its calls give what the file says, caches after each call included. A check of `scenarios` there then computes them all.
Calls that are refused with 1 to 4 or 10 change nothing and are left out, as are listings.
"""
import os, re, sys
CRATES='laws memory unc cache cache_lookup reply_bytes reply_read cache_entry cache_store walk_steps'
if sys.argv[1]=='--crates':
    print(CRATES)
    sys.exit()
root = sys.argv[1]
src=open(root+'/vectors/scenarios.txt').read().split('\n')
def units(s):
    out=[];i=0
    while i<len(s):
        if s[i]=='~': out.append(int(s[i+1:i+5],16)); i+=5
        else: out.append(ord(s[i])); i+=1
    return out
def lst(xs): return "("+"".join(f"{x} ∷ " for x in xs)+"[])" if xs else "[]"
def kv(line):
    d={}
    for w in line.split(' '):
        if '=' in w:
            k,v=w.split('=',1); d[k]=v
    return d
def parse_caches(lines):
    ref={}; dom={}; nr=nd=0; cur=None
    for l in lines:
        d=kv(l); w=l.split(' ')[0]
        if w=='referrals': nr=int(d['places'])
        elif w=='domains': nd=int(d['places'])
        elif w=='entry': cur=dict(prefix=units(d['prefix']),root=d['kind']=='root',interlink=d['interlink']=='1',failback=d['failback']=='1',ttl=int(d['ttl']),taken=int(d['taken']),hint=int(d['hint']),targets=[]); ref[int(d['place'])]=cur
        elif w=='target': cur['targets'].append((units(d['path']),d['boundary']=='1'))
        elif w=='domain': cur=dict(name=units(d['name']),hint=0 if d['hint']=='none' else int(d['hint']),dcs=[]); dom[int(d['place'])]=cur
        elif w=='dc': cur['dcs'].append(units(d['name']))
    return ref,dom,nr,nd
B=lambda b:"true" if b else "false"
def caches(c):
    ref,dom,nr,nd=c
    rs=[]
    for i in range(nr):
        if i in ref:
            e=ref[i]
            ts="".join(f"record {{ path = {lst(p)}; opens = {B(b)} }} ∷ " for p,b in e['targets'])+"[]"
            rs.append(f"used (record {{ prefix = {lst(e['prefix'])}; settings = record {{ root = {B(e['root'])}; interlink = {B(e['interlink'])}; failback = {B(e['failback'])}; ttl = {e['ttl']}; taken = {e['taken']} }}; targets = {ts}; hint = {e['hint']} }})")
        else: rs.append("free")
    ds=[]
    for i in range(nd):
        if i in dom:
            e=dom[i]
            ds.append(f"used (record {{ name = {lst(e['name'])}; dcs = {''.join(lst(x)+' ∷ ' for x in e['dcs'])}[]; hint = {e['hint']} }})")
        else: ds.append("free")
    return "(record { referrals = "+"".join(r+" ∷ " for r in rs)+"[]; domains = "+"".join(r+" ∷ " for r in ds)+"[] })"
KIND={'dc':'Dc','root':'Root','link':'Link','sysvol':'Sysvol','io':'Io'}
def scen():
    i=0
    while i<len(src):
        if not src[i].startswith('scenario'): i+=1; continue
        n=int(src[i].split()[1]); i+=1
        head=[]
        while i<len(src) and re.match(r'(referrals|domains|entry|target|domain|dc) ?',src[i]) : head.append(src[i]); i+=1
        calls=[]
        while i<len(src) and not src[i].startswith('scenario'):
            l=src[i]; i+=1
            if not l: continue
            w=l.split(' ')[0]
            if w=='set':
                body=[]
                while i<len(src) and re.match(r'(referrals|domains|entry|target|domain|dc) ',src[i]): body.append(src[i]); i+=1
                res=None; after=None
                if i<len(src) and src[i].startswith('> '): res=src[i][2:]; i+=1
                calls.append(('set',body,res,None)); continue
            res=src[i][2:] if i<len(src) and src[i].startswith('> ') else None
            if res is not None: i+=1
            after=[]
            while i<len(src) and src[i].startswith('= '): after.append(src[i][2:]); i+=1
            calls.append((w,l,res,after))
        yield n,head,calls
def build(n,head,calls):
    c=parse_caches(head); c0=c; ev=[]; out=[]
    for w,l,res,after in calls:
        if w=='set': 
            c=parse_caches(l); ev.append(f"puts {caches(c)}"); continue
        if w in('list',): continue
        if w=='read-listing':
            if after: c=parse_caches(after); ev.append(f"puts {caches(c)}")
            continue
        d=kv(l)
        if res is None: continue
        r=kv(res)
        if 'refused' in r and r['refused'] in('1','2','3','4','10') and not (w=='read-domains' and r['refused']=='3'): continue
        if after: c=parse_caches(after)
        if w=='start': ev.append(f"launch {lst(units(d['path']))} {d['limit']} {d['size']} {lst(units(d['boot']))} {d['now']}")
        elif w=='referral':
            b=bytes.fromhex(d['reply']) if d['reply'] else b''
            ev.append(f"answers {int(d['status'],16)} {lst(list(b))} {d['now']}")
        elif w=='read-domains':
            b=bytes.fromhex(d['reply']) if d['reply'] else b''
            ev.append(f"learns {lst(list(b))} {d['size']}")
            out.append(f"learnt {caches(c)}" if res=='ok' else f"refused {r['refused']}")
            continue
        elif w=='io': ev.append(f"tries {int(d['status'],16)} {d['now']}")
        else: print("??",w)
        if 'ask' in r:
            out.append(f"asked {KIND[r['ask']]} {lst(units(r['to']))} {lst(units(r['name']))} {r.get('size','0')} {r['moves']} {caches(c)}")
        elif 'end' in r:
            out.append(f"done {r['end']} {int(r['status'],16)} {lst(units(r['path']))} {r['moves']} {caches(c)}")
        elif 'refused' in r: out.append(f"refused {r['refused']}")
        else: print('?',res)
    if not out: return None
    return f"""scenario{n} : runs (record {{ caches = {caches(c0)}; core = nowhere; boot = []; limit = 0; left = 0; rest = ended Gone 0 [] }}) ({''.join('('+e+') ∷ ' for e in ev)}[]) ≡ {''.join('('+o+') ∷ ' for o in out)}[]
unfolding UNFOLD
scenario{n} = refl
"""
MODS=[('Rattle.laws.specs.Choice','laws/specs/Choice.antt'),('Rattle.laws.specs.Lists','laws/specs/Lists.antt'),('Rattle.unc.specs.names.Names','unc/specs/names/Names.antt'),('Rattle.unc.specs.names.Paths','unc/specs/names/Paths.antt'),('Rattle.cache_lookup.specs.Lookup','cache_lookup/specs/Lookup.antt'),('Rattle.reply_bytes.specs.texts.Bytes','reply_bytes/specs/texts/Bytes.antt'),('Rattle.reply_read.specs.referral.Replies','reply_read/specs/referral/Replies.antt'),('Rattle.reply_read.specs.name_lists.NameLists','reply_read/specs/name_lists/NameLists.antt'),('Rattle.cache_entry.specs.equivalent_targets.Equivalence','cache_entry/specs/equivalent_targets/Equivalence.antt'),('Rattle.cache_store.specs.entry_after_reply.Stored','cache_store/specs/entry_after_reply/Stored.antt'),('Rattle.walk_steps.specs.steps.Steps','walk_steps/specs/steps/Steps.antt')]
uses=""; names=[]
seen=set()
for m,f in MODS:
    t=open(f'{root}/crates/{f}').read()
    ns=[x for x in re.findall(r'(?m)^ *unfoldable pub (\S+)',t)]
    for x in ns:
        al=x
        if al in seen: al=f"{x}'{len(seen)}"
        seen.add(al)
        uses+=f"use {m}.{{{x}}}\n" if al==x else f"use {m}.{{{x} as {al}}}\n"; names.append(al)
hdr="""use Rattle.std.specs.Prelude.{ℕ, ◌-◌, Bool, true, false, ◌&&◌, List, [], ◌∷◌, length, get_or, eqb, leb, ◌≡◌, Option, None, Some}
use mathlib.Core.Path.{refl}
use Rattle.reply_read.specs.referral.Replies as replies
use Rattle.unc.specs.names.Paths.{Target}
use Rattle.cache.specs.order.Entries.{Referral, Domain, Place, free, used}
use Rattle.walk_steps.specs.steps.Steps.{Caches, Core, Question, Turn, Resting, Rest, waits, ended}
use Rattle.walk_steps.specs.declared.steps.Kind.{Kind}
use Rattle.walk_steps.specs.declared.steps.Kind.TheVariants.{Dc, Root, Link, Sysvol, Io}
use Rattle.walk_steps.specs.declared.steps.End.{End}
use Rattle.walk_steps.specs.declared.steps.End.TheVariants.{Done, NotDfs, NoDc, Failed, LimitReached, Malformed, TooLong, Gone}
"""
run="""
pub record State : Type 0 where
  pub caches : Caches
  pub core : Core
  pub boot : List ℕ
  pub limit : ℕ
  pub left : ℕ
  pub rest : Rest

pub data Event : Type 0 where
  launch : List ℕ → ℕ → ℕ → List ℕ → ℕ → Event
  answers : ℕ → List ℕ → ℕ → Event
  tries : ℕ → ℕ → Event
  learns : List ℕ → ℕ → Event
  puts : Caches → Event

pub data Out : Type 0 where
  asked : Kind → List ℕ → List ℕ → ℕ → ℕ → Caches → Out
  done : ℕ → ℕ → List ℕ → ℕ → Caches → Out
  refused : ℕ → Out
  learnt : Caches → Out
  silent : Out

abbrev pub nowhere : Core
nowhere = record { path = []; size = 0; hit = false }

abbrev pub target_to : ℕ → Option Referral → List ℕ
target_to j None = []
target_to j (Some e) = target_path j e

abbrev pub dc_to : ℕ → Option Domain → List ℕ
dc_to j None = []
dc_to j (Some d) = dc_name j d

abbrev pub pick : Bool → List ℕ → List ℕ → List ℕ
pick true a b = a
pick false a b = b

abbrev pub party : List ℕ → Caches → Core → Question → Kind → List ℕ
party b c w q Dc = b
party b c w q Root = pick (eqb q.entry 0) (get_or (components w.path) 0 []) (dc_to q.party (domain_in_use c w))
party b c w q Link = target_to q.party (referral_in_use c w q)
party b c w q Sysvol = dc_to q.party (domain_in_use c w)
party b c w q Io = target_to q.party (referral_in_use c w q)

abbrev pub end_path : ℕ → Core → List ℕ → List ℕ
end_path n w tried = pick (eqb n 20) tried w.path

abbrev pub shows : State → Rest → Out
shows s (waits q) = asked q.kind (party s.boot s.caches s.core q q.kind) (name_asked s.core q) q.size (s.limit - s.left) s.caches
shows s (ended e status tried) = done (end_number e) status (end_path (end_number e) s.core tried) (s.limit - s.left) s.caches

abbrev pub rested : List ℕ → ℕ → Caches → Resting → State
rested boot limit c r = record { caches = c; core = r.core; boot = boot; limit = limit; left = r.left; rest = r.rest }

abbrev pub settled : List ℕ → ℕ → ℕ → Turn → ℕ → State
settled boot limit left t clock = rested boot limit t.caches (turned left clock t)

abbrev pub start_core : List ℕ → ℕ → Core
start_core path size = record { path = normalised path; size = size; hit = false }

pub record Stepped : Type 0 where
  pub state : State
  pub out : Out

abbrev pub shown : State → Stepped
shown s = record { state = s; out = shows s s.rest }

abbrev pub refusing : State → Stepped
refusing s = record { state = s; out = refused 5 }

abbrev pub answering : State → ℕ → List ℕ → ℕ → Question → Kind → Stepped
answering s status reply clock q Dc = shown (settled s.boot s.limit s.left (referral_answered s.caches s.core q status reply clock) clock)
answering s status reply clock q Root = shown (settled s.boot s.limit s.left (referral_answered s.caches s.core q status reply clock) clock)
answering s status reply clock q Link = shown (settled s.boot s.limit s.left (referral_answered s.caches s.core q status reply clock) clock)
answering s status reply clock q Sysvol = shown (settled s.boot s.limit s.left (referral_answered s.caches s.core q status reply clock) clock)
answering s status reply clock q Io = refusing s

abbrev pub trying : State → ℕ → ℕ → Question → Kind → Stepped
trying s status clock q Dc = refusing s
trying s status clock q Root = refusing s
trying s status clock q Link = refusing s
trying s status clock q Sysvol = refusing s
trying s status clock q Io = shown (settled s.boot s.limit s.left (io_answered s.caches s.core q status) clock)

abbrev pub answers_at : State → ℕ → List ℕ → ℕ → Rest → Stepped
answers_at s status reply clock (waits q) = answering s status reply clock q q.kind
answers_at s status reply clock (ended n e x) = refusing s

abbrev pub tries_at : State → ℕ → ℕ → Rest → Stepped
tries_at s status clock (waits q) = trying s status clock q q.kind
tries_at s status clock (ended n e x) = refusing s

abbrev pub with_caches_of : Caches → State → State
with_caches_of c s = record { caches = c; core = s.core; boot = s.boot; limit = s.limit; left = s.left; rest = s.rest }

abbrev pub domains_in : State → List (List ℕ) → Stepped
domains_in s names =
    choose (leb (length (once names)) (length s.caches.domains))
    (record {
      state = with_caches_of (with_domains (domain_places (length s.caches.domains) (once names)) s.caches) s;
      out = learnt (with_domains (domain_places (length s.caches.domains) (once names)) s.caches) })
    (record { state = s; out = refused 6 })

abbrev pub learning : State → replies.Reply (List (List ℕ)) → Stepped
learning s replies.malformed = record { state = s; out = refused 7 }
learning s replies.nothing = record { state = s; out = refused 7 }
learning s (replies.says names) = domains_in s names

abbrev pub step : State → Event → Stepped
step s (learns reply size) =
    choose (leb 1024 size && leb size 57344) (learning s (read_domains size reply)) (record { state = s; out = refused 3 })
step s (launch path limit size boot clock) = shown (settled boot limit limit (started s.caches (start_core path size) clock) clock)
step s (answers status reply clock) = answers_at s status reply clock s.rest
step s (tries status clock) = tries_at s status clock s.rest
step s (puts c) = record { state = record { caches = c; core = s.core; boot = s.boot; limit = s.limit; left = s.left; rest = s.rest }; out = silent }

abbrev pub emit : Out → List Out → List Out
emit (asked k p n z m c) os = asked k p n z m c ∷ os
emit (done a b p m c) os = done a b p m c ∷ os
emit (refused n) os = refused n ∷ os
emit (learnt c) os = learnt c ∷ os
emit silent os = os

abbrev pub runs : State → List Event → List Out
runs s [] = []
runs s (e ∷ es) = emit (step s e).out (runs (step s e).state es)
"""
d=root+'/crates/scenarios/proofs'
os.makedirs(d)
os.makedirs(root+'/crates/scenarios/src')
open(root+'/crates/scenarios/src/lib.rt','w').write('// The scenarios.\n#![tactic(auto)]\n')
open(d+'/Run.antt','w').write(hdr+uses+run)
body=[];k=0
for n,h,c in scen():
    t=build(n,h,c)
    if t: body.append(t.replace('UNFOLD',' '.join(names))); k+=1
open(d+'/Scen.antt','w').write(hdr+uses+"use Rattle.scenarios.proofs.Run.{State, Event, launch, answers, tries, learns, puts, Out, asked, done, refused, learnt, nowhere, runs}\n\n"+"\n".join(body))
open(d+'/Lib.antt','w').write('-- The scenarios.\npub mod Run\npub mod Scen\n')
open(root+'/crates.txt','a').write(f'scenarios: {CRATES}\n')
print(k)
