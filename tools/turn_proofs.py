#!/usr/bin/env python3
"""Turns Proof.antt files of the older form (`tie.Need-..`) into Invariants.antt and Answers.antt: turn_proofs.py CRATE-FOLDER NAMES.json [--write] [FUNCTION..].

NAMES.json is what `rt check --generated OUT --old-names` writes. Paths of the nested context (`c.before.step`) become flat (`c.step`), goals and loops get
their new names, tuples for several clauses become records. What it could not turn is printed."""
import json,os,re,sys
crate_dir,names=sys.argv[1],json.load(open(sys.argv[2]))
write='--write' in sys.argv
only=[a for a in sys.argv[3:] if not a.startswith('--')]
crate=os.path.basename(os.path.abspath(crate_dir))
ID=r"[^\s(){}.;,@\"«»⟨⟩\[\]|]+"
def norm(s):
    s=re.sub(r'_lem(?=\d*$)','',s)
    return re.sub(r'[-_]','',s).lower()
def decls(text):
    """[(name, signature, unfolding, clauses)] and the text of other blocks in order."""
    out=[]; lines=text.split('\n'); i=0
    blocks=[]; cur=[]
    for l in lines:
        if l and not l[0].isspace():
            blocks.append([l])
        elif blocks: blocks[-1].append(l)
        else: blocks.append([l])
    return ['\n'.join(b).rstrip() for b in blocks]
sys.path.insert(0,os.path.dirname(os.path.abspath(__file__)))
import clauses as CL
CLAUSES=CL.clauses(os.path.abspath(crate_dir+'/../..'))
def nested(names,rest):
    """clauses were joined to the right: .0, .1.0, .1.1"""
    k=0;i=0
    while True:
        if i>=len(rest) or rest[i] not in ('0','1'): return rest
        if rest[i]=='0': return [names[k]]+rest[i+1:]
        k+=1;i+=1
        if k==len(names)-1: return [names[k]]+rest[i:]
class Ctx:
    own={'requires':[],'ensures':[],'params':[]}
    def named(self,callee,kind,rest):
        """`.ensures.1` of a callee with named clauses is `.ensures.name`"""
        names=(CLAUSES.get(callee) or {}).get(kind,[]) if isinstance(callee,str) else (self.own[kind] if callee is True else [])
        if len(names)>1: return nested(names,rest)
        return rest
    def step(self,p,rest):
        if rest[:1]==['ensures']: return ['ensures']+self.named(p[3],'ensures',rest[1:])
        if rest[:1] in (['new'],['auto']) and len(rest)>1 and rest[1].isdigit():
            muts=(CLAUSES.get(p[3]) or {}).get('muts',[]) if isinstance(p[3],str) else []
            if int(rest[1])<len(muts): return [rest[0],muts[int(rest[1])]]+rest[2:]
        if rest[:1]==['taken']: return ['true']+rest[1:]
        if rest[:1]==['left']: return ['false']+rest[1:]
        if rest[:1]==['inv']: return ['invariant']+rest[1:]
        return rest
    def start(self,f,rest):
        if f=='requires': rest=self.named(True,'requires',rest)
        if f=='args' and rest and re.fullmatch(r't\d+',rest[0]) and rest[0] not in self.own['params']:
            k=int(rest[0][1:])-1
            if k<len(self.own['params']): rest=[self.own['params'][k]]+rest[1:]
        if f=='well-formed': f='well_formed'
        return '.'.join(['c',f]+rest)
    def __init__(self,j):
        self.places={p[0]:p for p in j['places']}
        self.byname=dict(zip([p[0] for p in j['places']],j['places_by_name']))
        self.bynorm={norm(p[0]):p[0] for p in j['places']}
def resolve(ctx,place,fields):
    r=resolve1(ctx,place,fields)
    if r is not None: return r
    k=0
    while k<len(fields) and fields[k]=='before': k+=1
    rest=list(fields[k:])
    if not rest:
        return None
    f=rest[0]
    if f in ('args','requires','well-formed','well_formed','ranges'): return ('path',ctx.start(f,rest[1:]))
    q=place
    while q is not None:
        p=ctx.places[q]
        if p[2][0] and norm(p[2][0])==norm(f): return ('path','.'.join(['c',p[2][1]]+ctx.step(p,rest[1:])))
        q=p[1]
    hits={p[2][1]:p for p in ctx.places.values() if p[2][0] and norm(p[2][0])==norm(f)}
    if len(hits)==1:
        n,p=hits.popitem(); return ('path','.'.join(['c',n]+ctx.step(p,rest[1:])))
    return None
def resolve1(ctx,place,fields):
    """path from a context at place; returns ('place',P) or ('path',text) or None"""
    i=0
    while i<len(fields) and fields[i]=='before':
        if ctx.places[place][1] is None: return ('place','Start') if all(x=='before' for x in fields) else None
        place=ctx.places[place][1]
        i+=1
    if i==len(fields): return ('place',place)
    f=fields[i]; p=ctx.places[place]; rest=list(fields[i+1:])
    old,new=p[2]
    if old and norm(old)==norm(f):
        return ('path','.'.join(['c',new]+ctx.step(p,rest)))
    # step of the same kind with other count
    if f in ('args','requires','well-formed','well_formed','ranges'):
        return ('path',ctx.start(f,rest))
    if f in ('type_inv','auto','lifetimes'):
        return ('path','.'.join(['c',f]+rest))
    return None
problems=[]
def back(ctx,frm,to):
    n=0;q=frm
    while q is not None and q!=to: q=ctx.places[q][1]; n+=1
    return 'c'+'.before'*n if q else 'c'
def rewrite(text,ctx,env,who):
    """rewrite paths; env: var -> place"""
    env=dict(env); origin=env.get('c')
    # remove aliases to places
    changed=True
    aliases={}
    while changed:
        changed=False
        for m in re.finditer(r"(?m)let ("+ID+r") = ("+ID+r")((?:\."+ID+r")*) in(\s)",text):
            v,h,fs=m[1],m[2],[x for x in m[3].split('.') if x]
            if h in env:
                r=resolve(ctx,env[h],fs)
                if r and r[0]=='place' and (fs or h!=v):
                    # remove let
                    env[v]=r[1]
                    text=text[:m.start()]+text[m.end():].lstrip(' ') if False else text[:m.start()]+text[m.end():]
                    changed=True
                    break
    text=re.sub(r"(?m)^[ \t]+\n","",text)
    def sub(m):
        h,fs=m[1],[x for x in m[2].split('.') if x]
        if h not in env: return m[0]
        if not fs:
            if h=='c': return m[0]
            problems.append(f'{who}: context {h} at {ctx.byname[env[h]]} as a value'); return back(ctx,origin,env[h])
        r=resolve(ctx,env[h],fs)
        if r is None:
            problems.append(f'{who}: {m[0]} not resolved'); return m[0]
        if r[0]=='place':
            problems.append(f'{who}: context {m[0]} at {ctx.byname[r[1]]} as a value'); return m[0]
        return r[1]
    text=re.sub(r"(?<![\w.'-])("+ID+r")((?:\."+ID+r")*)",lambda m: sub(m),text)
    return text
def split_tuple(t):
    """the parts of a parenthesised tuple, or None"""
    t=t.strip()
    if not(t.startswith('(') and t.endswith(')')): return None
    d=0;parts=[];cur='';i=0
    for k,ch in enumerate(t):
        if ch in '([{⟨': d+=1
        if ch in ')]}⟩': d-=1
        if d==0 and k<len(t)-1: return None
        if k in (0,len(t)-1): continue
        if ch==',' and d==1: parts.append(cur); cur=''; continue
        cur+=ch
    if cur.strip(): parts.append(cur)
    return parts if len(parts)>1 else None
def as_record(tail,names,who):
    """turns the tuple at the end of an answer into a record by names"""
    if len(names)<2: return tail
    # find the last '(' at which a tuple starts that ends the text
    body=tail.rstrip()
    if not body.endswith(')'):
        problems.append(f'{who}: wants a record of {names}'); return tail
    d=0
    for k in range(len(body)-1,-1,-1):
        if body[k] in ')]}': d+=1
        if body[k] in '([{':
            d-=1
            if d==0: break
    parts=split_tuple(body[k:])
    if not parts: problems.append(f'{who}: wants a record of {names}'); return tail
    n=len(names)
    while len(parts)<n and split_tuple(parts[-1]): parts=parts[:-1]+split_tuple(parts[-1])
    if len(parts)!=n: problems.append(f'{who}: wants a record of {names}, has {len(parts)} parts'); return tail
    return body[:k]+'record { '+'; '.join(f'{a} = {b.strip()}' for a,b in zip(names,parts))+' }'
def alias_names(text,ctx,place):
    steps={q[2][1]:q for q in ctx.places.values() if q[2][1]}
    for m in list(re.finditer(r"let ("+ID+r") = c\.("+ID+r") in\s",text)):
        v,st=m[1],m[2]
        def f(q):
            rest=q[1].split('.')[1:]
            if st=='args': return '.'.join([v]+ctx.start('args',rest).split('.')[2:])
            if st in steps: return '.'.join([v]+ctx.step(steps[st],rest))
            return q[0]
        text=re.sub(r"(?<![\w.'-])"+re.escape(v)+r"((?:\."+ID+r")+)",f,text)
    for m in list(re.finditer(r"let ("+ID+r") = c\.("+ID+r")\.ensures in",text)):
        p=[q for q in ctx.places.values() if q[2][1]==m[2]]
        if p and isinstance(p[0][3],str):
            names=(CLAUSES.get(p[0][3]) or {}).get('ensures',[])
            if len(names)>1: text=re.sub(r"(?<![\w.'-])"+re.escape(m[1])+r"((?:\.\d+)+)",lambda q: '.'.join([m[1]]+nested(names,q[1].split('.')[1:])),text)
    if len(ctx.own['requires'])>1:
        for m in list(re.finditer(r"let ("+ID+r") = c\.requires in",text)):
            names=ctx.own['requires']
            text=re.sub(r"(?<![\w.'-])"+re.escape(m[1])+r"((?:\.\d+)+)",lambda q: '.'.join([m[1]]+nested(names,q[1].split('.')[1:])),text)
    return text
def tidy_lets(t):
    # blank lines left by removed lets
    return re.sub(r'\n[ \t]*(?=\n[ \t]+\S)','',t) if False else t
def convert(path,key,j):
    text=open(path).read()
    ctx=Ctx(j); fn='::'.join([crate]+key.split('.')[1:-1]); ctx.own=CLAUSES.get(fn) or ctx.own; who=os.path.relpath(path,crate_dir)
    mod=key[:-4].replace('Rattle-','Rattle.',1)
    mod=re.sub(r'^Rattle\.(\w+)-proofs',r'Rattle.\1.proofs',mod)
    blocks=decls(text)
    head=[];uses=[];items=[]
    for b in blocks:
        if b.startswith('--') and not items: head.append(b) if not uses else items.append(('raw',b))
        elif b.startswith('use '):
            if '.Statement.{' in b or b.rstrip().endswith('.Tie as tie') or '.Tie.{' in b: continue
            uses.append(b)
        else: items.append(('raw',b))
    # group into declarations
    needs=j['needs']; need_at=j['asked_at']
    bynorm={}
    for k,(o,n) in enumerate(needs): bynorm.setdefault(norm(o),k)
    ds=[]
    for _,b in items:
        first=b.split('\n')[0]
        m=re.match(r"(?:(abbrev|unfoldable|pub|abbrev pub|pub abbrev) )*("+ID+r")((?: \{[^}]*\})*) :(?=\s)",first) or re.match(r"(?:(?:abbrev|unfoldable|pub) )*(?:record|data) ("+ID+")",first)
        if m and not first.startswith(('--','unfolding')):
            ds.append([m[2] if m.lastindex and m.lastindex>=2 else m[1],[b]])
        elif ds and not first.startswith('--'): ds[-1][1].append(b)
        else: ds.append([None,[b]])
    inv=[];ans=[]; used=set(); order=0
    need_names=[d for d in ds if d[0] and re.search(r'\btie\.Need-',d[1][0])]
    exact=len(need_names)==len(needs)
    comments=[]
    for d in ds:
        name,bl=d
        if name is None:
            comments.append('\n'.join(bl)); continue
        sig=bl[0]
        body='\n'.join(bl)
        if re.search(r'\bstatement M|: statement\b|\{M : Type 1\}',sig) or 'tie.close' in body: comments=[]; continue
        if re.search(r'tie\.(invariant|decreases)-',sig):
            m=re.search(r'tie\.((?:invariant|decreases)-\S+)',sig)
            loops=j['loops']
            lname=m[1].split('-',1)[1]
            k=[q for q,l in enumerate(loops) if norm(l[0][0])==norm(lname)]
            if not k: problems.append(f'{who}: loop {lname} not found'); k=[0] if loops else []
            if not k: continue
            l=loops[k[0]]; ch=j['changed'][k[0]]
            new=('invariant-' if m[1].startswith('inv') else 'decreases-')+l[0][1]
            clause=re.search(r"(?m)^"+re.escape(name)+r"((?: +[^=\n]+?)*) =(?=\s)((?:.|\n)*)",body.split('\n',1)[1] if '\n' in body else '')
            if not clause: problems.append(f'{who}: no clause for {name}'); continue
            params=clause[1].split(); rhs=clause[2]
            vars_=l[1]; want=[(v,'initial' if c else 'now') for v,c in zip(vars_,ch)]+[(v,'now') for v,c in zip(vars_,ch) if c]
            if len(want)!=len(params):
                problems.append(f'{who}: {name} has {len(params)} parameters, wanted {len(want)}: {params} / {want}')
            sub={}
            for p,(v,w) in zip(params,want):
                sub[p]=f'l.initial.{v}' if w=='initial' else f'l.{v}'
            for p in sub:
                if re.search(r"(λ[^.]*\b"+re.escape(p)+r"\b[^.]*\.)|\(("+re.escape(p)+r")( |\b)[^()]* : ",rhs): problems.append(f'{who}: {name} binds {p} again')
            rhs=re.sub(r"(?<![\w.'-])("+ID+r")(?=(\.|\b|[\s()\[\],;]|$))",lambda mm: sub.get(mm[1],mm[1]),rhs)
            unf=re.search(r'(?m)^unfolding .*\n',body)
            pre=('\n'.join(comments)+'\n') if comments else ''; comments=[]
            inv.append(f"{pre}abbrev pub {new} : goal.{new}\n"+(unf[0] if unf else '')+f"{new} l ={rhs}")
            continue
        mn=re.search(r'\btie\.Need-(\S+)',sig)
        if mn:
            lab=mn[1]
            idx=None
            for cand in (name,lab,re.sub(r'^(overflow|nonzero|bounds|slice-bounds|slice_bounds)-','',lab)):
                if norm(cand) in bynorm and bynorm[norm(cand)] not in used: idx=bynorm[norm(cand)]; break
            if idx is None and norm(name) in ('loopholds','loopless','loopagain','samelength'):
                pass
            if exact:
                oi=need_names.index(d)
                if idx!=oi:
                    idx=oi
            if idx is None:
                al={'loop-holds':'loop-init','loop-less':'loop-smaller','loop-again':'loop-preserved'}
                for a,b2 in al.items():
                    if norm(name).startswith(norm(a)):
                        cand=norm(name).replace(norm(a),norm(b2))
                        if cand in bynorm: idx=bynorm[cand]
            if idx is None:
                problems.append(f'{who}: need {name} ({lab}) not found among {[n[0] for n in needs]}'); comments=[]; continue
            used.add(idx)
            new=needs[idx][1]; place=need_at[idx][0]
            # clause(s)
            rest=body.split('\n')
            # signature may span lines until a line that starts at col 0
            k=1
            while k<len(rest) and (rest[k][:1].isspace()): k+=1
            tail='\n'.join(rest[k:])
            tail=re.sub(r"(?m)^"+re.escape(name)+r"(?=[ \n])",new,tail)
            m2=re.match(r"((?:unfolding [^\n]*\n)?)"+re.escape(new)+r"((?: +"+ID+r")*?) =",tail)
            if m2:
                args=m2[2].split()
                args2=[a for a in args if a not in ('κs','κ')]
                tail=tail[:m2.end(1)]+new+''.join(' '+a for a in args2)+' ='+tail[m2.end():]
                if args2[:1]!=['c'] and args2: 
                    env={args2[0]:place}
                else: env={'c':place}
                if len(args2)>3: problems.append(f'{who}: {new} takes {args2}')
            else: env={'c':place}; problems.append(f'{who}: clause of {new} not parsed: {tail[:80]!r}')
            tail=rewrite(tail,ctx,env,who+' '+new)
            tail=alias_names(tail,ctx,place)
            if new=='returns' or new.startswith('returns-'): tail=as_record(tail,ctx.own['ensures'],who+' '+new) if not re.search(r"c =\s+search rules\s*$",tail) else tail
            mr=re.match(r"(\w+?)-(?:.*-)?requires(?:-|$)",new)
            if mr:
                cal=[k for k in CLAUSES if k.split('::')[-1]==mr[1] and len(CLAUSES[k]['requires'])>1]
                if cal and not re.search(r"c =\s+search rules\s*$",tail): tail=as_record(tail,CLAUSES[cal[0]]['requires'],who+' '+new)
            if re.fullmatch(re.escape(new)+r" c =\s+search rules\s*",tail): comments=[]; continue
            pre=('\n'.join(comments)+'\n') if comments else ''; comments=[]
            ans.append(f"{pre}pub {new} : goal.{new}\n{tail}")
            continue
        # helper
        env={}
        def ty(mm):
            pl=mm[2]; key2=ctx.bynorm.get(norm(pl))
            if not key2: problems.append(f'{who}: place {pl} not found'); return mm[0]
            env[mm[1]]=key2
            return f'({mm[1]} : goal.{ctx.byname[key2]})'
        body2=re.sub(r"\(("+ID+r") : tie\.("+ID+r")(?: invariant-\S+?| decreases-\S+?)*\)",ty,body)
        mm=re.search(r": tie\.("+ID+r")((?: (?:invariant|decreases)-[^\s)]+)*) →",body2)
        if mm:
            key2=ctx.bynorm.get(norm(mm[1]))
            if key2:
                body2=body2.replace(mm[0],f': goal.{ctx.byname[key2]} →'); env['c']=key2
            else: problems.append(f'{who}: place {mm[1]} not found')
        if 'tie.' in body2: problems.append(f'{who}: helper {name} still names tie')
        if env: body2=rewrite(body2,ctx,env,who+' '+name)
        pre=('\n'.join(comments)+'\n') if comments else ''; comments=[]
        ans.append(pre+body2)
    missing=[n[1] for k,n in enumerate(needs) if k not in used]
    d=os.path.dirname(path)
    htxt='\n'.join(head)+('\n' if head else '')
    # a header comment may belong to invariants
    files={}
    if inv: files['Invariants.antt']=htxt+'\n'.join(uses)+f'\nuse {mod}.Given as goal\n\n'+'\n\n'.join(inv)+'\n'
    if ans: files['Answers.antt']=(htxt if not inv else '')+'\n'.join(uses)+f'\nuse {mod}.Goals as goal\n\n'+'\n\n'.join(ans)+'\n'
    for t in files:
        files[t]=re.sub(r'\n[ \t]*\n(?=[ \t]+\S)','\n',files[t])
        files[t]=re.sub(r'=[ \t]*\n[ \t]*\n','=\n',files[t])
        files[t]=re.sub(r'[ \t]+\n','\n',files[t])
    return files
done=0
for key,j in names.items():
    if key.count('.')<2: continue
    f=key.split('.',1)[1].rsplit('.',1)[0].replace('.','/')
    d=os.path.join(crate_dir,'proofs',f); p=os.path.join(d,'Proof.antt')
    if not os.path.exists(p): continue
    if only and not any(o in f for o in only): continue
    if '+' in f: problems.append(f'{f}: a cycle, by hand'); continue
    files=convert(p,key,j)
    done+=1
    if write:
        os.remove(p)
        for n,t in files.items(): open(os.path.join(d,n),'w').write(t)
        if not files:
            try: os.rmdir(d)
            except OSError: pass
    elif only:
        for n,t in files.items(): print('-----',n); print(t)
print(f'{crate}: {done} converted, {len(problems)} problems',file=sys.stderr)
for p in problems: print('  '+p,file=sys.stderr)
