"""The names of the clauses and parameters of each function, read from src/: for turn_proofs.py."""
import re,os,sys,json
def clauses(top):
    out={}
    for c in sorted(os.listdir(top+'/crates')):
        src=f'{top}/crates/{c}/src'
        for d,_,fs in os.walk(src):
            for f in fs:
                if not f.endswith('.rt'): continue
                mod=os.path.relpath(os.path.join(d,f),src)[:-3].split('/')
                if mod in (['lib'],['main']): mod=[]
                t=open(os.path.join(d,f)).read()
                for m in re.finditer(r'(?m)^\s*(?:pub )?(?:extern "C" )?fn (\w+)',t):
                    nxt=re.search(r'(?m)^\s*(?:pub )?(?:extern "C" )?fn ',t[m.end():])
                    seg=t[m.end(): m.end()+nxt.start()] if nxt else t[m.end():]
                    body=re.search(r'(?m)^\{',seg)
                    seg=seg[:body.start()] if body else seg
                    req=re.findall(r'(?m)^\s*requires\*? (\w+) \{',seg); ens=re.findall(r'(?m)^\s*ensures\*? (\w+) \{',seg)
                    params=[x for x in re.findall(r'(\w+): ',seg[:seg.find(')')+1 if '->' not in seg else seg.find('->')])]
                    out['::'.join([c]+mod+[m[1]])]={'requires':req,'ensures':ens,'params':params,'muts':re.findall(r'(\w+): &(?:\'\w+ )?mut ',seg)}
    return out
if __name__=='__main__':
    o=clauses(sys.argv[1]); print(len(o)); print(sum(1 for v in o.values() if v['requires']),sum(1 for v in o.values() if v['ensures']))
    for k,v in o.items():
        if v['requires'] or v['ensures']: print(k,v)
