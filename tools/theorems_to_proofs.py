#!/usr/bin/env python3
"""Moves the theorems of specs/ to proofs/, where the definitions that they rest on stay in specs/.

usage: python3 tools/theorems_to_proofs.py CRATE..      at the top of the repository

In each file of a crate's specs/ the declarations that are a record, a data type, an abbrev or an unfoldable stay, and what those name. Every other
declaration is a theorem or a step of one: it goes, as it is written, to the file of the same name in proofs/, a section (`module _`) as a whole. Imports follow: in every
crate a name that moved is imported from proofs/. A definition that a moved proof names is made `pub`.
"""
import os,re,sys

WORD=re.compile(r"[A-Za-zℕ_⊥⊤][\w'₀-₉ℕ\-]*|◌[^\s,{}()]+|\S")
USE=re.compile(r"^(pub )?use (Rattle\.[\w.]+|[A-Za-z][\w.]*)(?:\.\{(.*)\})?( as .*)?$")

def files(top):
    for d,ds,fs in os.walk(top):
        ds[:]=sorted(x for x in ds if x!="out")
        for f in sorted(fs): yield os.path.join(d,f)

def read(p): return open(p,encoding="utf-8").read()
def write(p,t):
    os.makedirs(os.path.dirname(p),exist_ok=True)
    open(p,"w",encoding="utf-8").write(t)

class Block:
    def __init__(s,lines):
        s.lines=lines; s.text="\n".join(lines)
        code=[l for l in lines if l.strip() and not l.lstrip().startswith("--")]
        s.code=code; s.first=code[0] if code else ""
        s.names=[]
        s.kind="comment"
        if not code: return
        if s.first.startswith("infix"):
            s.kind="fixity"; s.names=[]; s.ops=[l.split()[-1] for l in code]
        elif s.first.startswith("module _"):
            s.kind="section"
            stack=[0]
            for l in code[1:]:
                ind=len(l)-len(l.lstrip())
                while ind<=stack[-1]: stack.pop()
                if ind!=stack[-1]+2: continue
                if l.lstrip().startswith("module _"): stack.append(ind); continue
                m=re.match(r"((?:(?:abbrev|unfoldable|pub|data|record) )*)([^\s:=]+)(?= ?)[^=]*?:(\s|$)",l.lstrip())
                if m:
                    s.names.append(m.group(2))
                    if re.search("abbrev|unfoldable|data|record",m.group(1)): s.defs=getattr(s,"defs",[])+[m.group(2)]
        else:
            m=re.match(r"((?:(?:abbrev|unfoldable|pub|data|record) )*)([^\s:=]+)",s.first)
            if not m: raise SystemExit("odd block: "+repr(s.text[:300]))
            s.names=[m.group(2)]
            s.kind="definition" if re.search("abbrev|unfoldable|data|record",m.group(1)) else "theorem"
            if re.search("data|record",m.group(1)):
                # constructors and fields come with it
                for l in code[1:]:
                    k=re.match(r"  (?:pub )?([^\s:]+)[^:=]* :(\s|$)",l)
                    if k: s.names.append(k.group(1))
        s.words=set(WORD.findall(re.sub(r"--.*","",s.text)))

def parse(text):
    """head comment, use lines (with comments between), blocks"""
    text=re.sub(r"(?m)^((?:pub )?use [\w.]+\.\{)\s*\n((?:  [^\n]*\n)+?)\}",lambda m:m.group(1)+", ".join(x.strip().rstrip(",") for x in m.group(2).replace("\n"," ").split(",") if x.strip())+"}",text)
    lines=text.split("\n"); i=0; top=[]; 
    while i<len(lines) and lines[i].startswith("--"): top.append(lines[i]); i+=1
    uses=[]; rest=[]; pend=[]
    blocks=[]; cur=[]
    def flush():
        nonlocal cur
        if any(l.strip() for l in cur): blocks.append(cur)
        cur=[]
    mods=[]
    depth=0
    for l in lines[i:]:
        if re.match(r"(pub )?use ",l):
            flush_comment=[x for x in cur if x.strip()]
            if all(x.lstrip().startswith("--") for x in flush_comment): uses.append((flush_comment,l)); cur=[]
            else: flush(); uses.append(([],l))
            continue
        if re.match(r"(pub )?mod ",l): flush(); mods.append(l); continue
        top_level=l and not l[0].isspace()
        if top_level and not l.startswith("--"):
            # does it begin a declaration?
            code=[x for x in cur if x.strip() and not x.lstrip().startswith("--")]
            begins=False
            if re.match(r"(abbrev|unfoldable|pub|data|record|module|instance|syntax|infix[lr]?)\b",l): begins=True
            elif re.match(r"unfolding ",l): begins=False
            else:
                w=re.match(r"([^\s:=]+)",l).group(1)
                # a signature has ' : ' at depth 0 before any '='
                sig=re.match(r"[^\s:=]+(?: [^=]*?)? ?:(\s|$)",l) is not None and not re.match(r"[^\s:=]+ [^:]*=",l)
                begins=sig and not (code and Block(cur).names[:1]==[w] and not sig)
            if begins:
                # comments directly before belong to the new block
                k=len(cur)
                while k>0 and (cur[k-1].startswith("--")): k-=1
                tail=cur[k:]; cur=cur[:k]; flush(); cur=list(tail)
        cur.append(l)
    flush()
    return top,uses,mods,[Block(b) for b in blocks]

def main(argv):
    root="."
    for crate in argv: move(root,crate)

def path_module(crate,part,rel): return f"Rattle.{crate}.{part}."+rel[:-5].replace("/",".")

def move(root,crate):
    base=f"{root}/crates/{crate}"; S=base+"/specs"
    mods={}
    for p in files(S):
        if p.endswith(".antt"): mods[os.path.relpath(p,S)]=parse(read(p))
    # which names must stay
    from_src=set()
    for p in files(root+"/crates"):
        if p.endswith(".rt"):
            for m in re.finditer(r"ghost use Rattle\."+crate+r"\.specs\.([\w.]+?)\.\{([^}]*)\}",read(p)):
                for n in m.group(2).split(","): from_src.add((m.group(1).replace(".","/")+".antt",n.strip()))
    stay={}
    imports={}  # rel -> {name: (rel2)}
    for rel,(top,uses,ms,bs) in mods.items():
        imp={}
        for _,u in uses:
            m=USE.match(u)
            if m and m.group(2).startswith(f"Rattle.{crate}.specs.") and m.group(3):
                r2=m.group(2)[len(f"Rattle.{crate}.specs."):].replace(".","/")+".antt"
                for n in m.group(3).split(","):
                    n=n.strip(); a=n.split(" as ")
                    imp[a[-1].strip()]=(r2,a[0].strip())
        imports[rel]=imp
        for i,b in enumerate(bs):
            st=b.kind=="definition" or any((rel,n) in from_src for n in b.names)
            stay[(rel,i)]=st
    changed=True
    def owner(rel,n):
        for i,b in enumerate(mods[rel][3]):
            if n in b.names: return (rel,i)
    while changed:
        changed=False
        for (rel,i),st in list(stay.items()):
            if not st: continue
            b=mods[rel][3][i]
            for w in b.words:
                o=owner(rel,w)
                if o is None and w in imports[rel] and imports[rel][w][0] in mods: o=owner(*imports[rel][w])
                if o and not stay[o]: stay[o]=True; changed=True
    for rel,(top,uses,ms,bs) in mods.items():
        for i,b in enumerate(bs):
            if b.kind=="fixity": stay[(rel,i)]=any(o is not None and stay[o] for o in (owner(rel,x) for x in b.ops))
    # sections with definitions that stay elsewhere use are whole
    moved={}
    for rel,(top,uses,ms,bs) in mods.items():
        for i,b in enumerate(bs):
            if b.kind in("theorem","section") and not stay[(rel,i)]:
                for n in b.names: moved.setdefault(rel,set()).add(n)
    # re-exports of moved names
    again=True
    while again:
        again=False
        for rel,(top,uses,ms,bs) in mods.items():
            for _,u in uses:
                m=USE.match(u)
                if m and m.group(1) and m.group(3) and m.group(2).startswith(f"Rattle.{crate}.specs."):
                    r2=m.group(2)[len(f"Rattle.{crate}.specs."):].replace(".","/")+".antt"
                    for n in m.group(3).split(","):
                        n=n.strip()
                        if n in moved.get(r2,()) and n not in moved.setdefault(rel,set()): moved[rel].add(n); again=True
    if not any(moved.values()): print(crate,"nothing moves"); return
    def turn_use(u,inside_specs_of_own=False):
        """A use line, as lines with moved names taken from proofs."""
        m=USE.match(u)
        if not m or not m.group(2).startswith(f"Rattle.{crate}.specs.") or not m.group(3): return [u],[]
        r2=m.group(2)[len(f"Rattle.{crate}.specs."):].replace(".","/")+".antt"
        if r2 not in moved: return [u],[]
        ns=[n.strip() for n in m.group(3).split(",")]
        a=[n for n in ns if n.split(" as ")[0].strip() not in moved[r2]]; b=[n for n in ns if n.split(" as ")[0].strip() in moved[r2]]
        pub=m.group(1) or ""
        return ([f"{pub}use {m.group(2)}.{{{', '.join(a)}}}"] if a else []),([f"{pub}use {path_module(crate,'proofs',r2)}.{{{', '.join(b)}}}"] if b else [])
    def prune(u,words,text):
        m=USE.match(u)
        if not m or not m.group(3) or m.group(1): return u
        ns=[n.strip() for n in m.group(3).split(",")]
        def used(n):
            a=n.split(" as ")[-1].strip()
            if not re.fullmatch(r"[A-Za-zℕ_⊥⊤][\w'₀-₉ℕ\-]*",a): return all(x in text for x in a.split("◌") if x)
            return a in words
        k=[n for n in ns if used(n)]
        return f"use {m.group(2)}.{{{', '.join(k)}}}" if k else None
    edits="".join(read(p) for p in files(base+"/must-fail")) if os.path.isdir(base+"/must-fail") else ""
    proofs_mods=[]
    unfolds=set()
    for rel,(top,uses,ms,bs) in mods.items():
        for i,b in enumerate(bs):
            if not stay[(rel,i)]:
                for l in b.lines:
                    if l.strip().startswith("unfolding "): unfolds|=set(l.split()[1:])
    for rel,(top,uses,ms,bs) in mods.items():
        if rel not in moved: continue
        stays=[b for i,b in enumerate(bs) if stay[(rel,i)] or b.kind=="comment"]
        goes=[b for i,b in enumerate(bs) if not stay[(rel,i)]]
        real_stays=[b for b in stays if b.kind!="comment"]
        own=[n for b in real_stays for n in b.names]
        gw=set().union(*[b.words for b in goes if b.kind!="comment"]) if goes else set()
        gt="\n".join(b.text for b in goes); st="\n".join(b.text for b in real_stays)
        # proofs file
        us=[]
        for cm,u in uses:
            a,b=turn_use(u)
            if u.startswith("pub use") and not b: continue
            for x in a+b:
                x=prune(x,gw,gt)
                if x: us+=(cm if x.startswith("pub ") else [])+[x]
        need=[n for n in dict.fromkeys(own) if n in gw]
        mod_self=path_module(crate,"specs",rel)
        fields=set()
        tops=[b.names[0] for b in real_stays if b.kind not in("section","fixity")]+[n for b in real_stays if b.kind=="section" for n in b.names]
        tops+=[n for b in real_stays if b.kind=="definition" and re.match(r"(pub )?data\b",b.first) for n in b.names[1:]]
        need=[n for n in dict.fromkeys(tops) if n in gw]
        if need: us.append(f"use {mod_self}.{{{', '.join(need)}}}")
        # publish what the proofs name
        text=lambda b:b.text
        t="\n".join(top)+"\n"+"\n".join(us)+"\n\n"+"\n\n".join(b.text.strip("\n") for b in goes)+"\n"
        write(f"{base}/proofs/{rel}",t)
        proofs_mods.append(rel)
        # specs file
        if not real_stays and not ms:
            os.remove(f"{S}/{rel}"); mods[rel]=(None,)*4
        else:
            sw=set().union(*[b.words for b in real_stays]) if real_stays else set()
            us=[]
            for cm,u in uses:
                a,b=turn_use(u)
                for x in a:
                    if x in edits: us+=cm+[x]; continue
                    x=prune(x,sw,st)
                    if x: us+=cm+[x]
            out=[]
            for b in stays:
                tx=b.text.strip("\n")
                if b.kind in("definition","theorem") and b.names[0] in need:
                    ls=tx.split("\n")
                    k=next(i for i,l in enumerate(ls) if l.strip() and not l.startswith("--"))
                    if not re.match(r"(abbrev |unfoldable )?pub ",ls[k]): ls[k]=re.sub(r"^(abbrev |unfoldable )?",lambda m:(m.group(1) or "")+"pub ",ls[k])
                    if b.kind=="theorem" and b.names[0] in unfolds: ls[k]="unfoldable "+ls[k]
                    if re.match(r"(pub )?record\b",ls[k]):
                        for q in range(k+1,len(ls)): ls[q]=re.sub(r"^  (?!pub |--| )(\S+[^:=]* :(?:\s|$))",r"  pub \1",ls[q])
                    tx="\n".join(ls)
                out.append(tx)
            write(f"{S}/{rel}","\n".join(top+us)+("\n\n" if out else "\n")+"\n\n".join(out)+("\n"+"\n".join(ms) if ms else "")+("\n" if out or ms else ""))
    # module files
    tree={}
    for rel in proofs_mods: tree.setdefault(os.path.dirname(rel),[]).append(os.path.basename(rel)[:-5])
    def declare(p,names,head=None):
        t=read(p) if os.path.exists(p) else ""
        have=set(re.findall(r"(?m)^(?:pub )?mod (\w+)",t))
        add=[n for n in names if n not in have]
        if add: write(p,t.rstrip("\n")+("\n" if t.strip() else "")+"".join(f"pub mod {n}\n" for n in add))
    for d,names in sorted(tree.items()):
        if d=="": declare(f"{base}/proofs/Lib.antt",names)
        else:
            declare(f"{base}/proofs/{d}.antt",names)
            parts=d.split("/")
            declare(f"{base}/proofs/"+("Lib.antt" if len(parts)==1 else "/".join(parts[:-1])+".antt"),[parts[-1]])
    # specs' own module lines: of files that are gone
    for p in files(S):
        if p.endswith(".antt"):
            t=read(p); rel=os.path.relpath(p,S); d="" if rel=="Lib.antt" else rel[:-5]+"/"
            new="\n".join(l for l in t.split("\n") if not (re.match(r"(pub )?mod (\w+)$",l) and not os.path.exists(f"{S}/{d}{l.split()[-1]}.antt")))
            if new!=t: write(p,new)
    # other users, and the crate's own files that did not move
    for p in files(root+"/crates"):
        if not p.endswith(".antt"): continue
        rel=os.path.relpath(p,S) if p.startswith(S+"/") else None
        if rel in moved or (p.startswith(base+"/proofs/") and os.path.relpath(p,base+"/proofs") in proofs_mods): continue
        t=read(p); ls=[]
        for l in t.split("\n"):
            a,b=turn_use(l) if re.match(r"(pub )?use Rattle\."+crate+r"\.specs\.",l) else ([l],[])
            ls+=a+b
        n="\n".join(ls)
        if n!=t: write(p,n)
    print(crate,"moved",sum(len(v) for v in moved.values()),"names of",len(proofs_mods),"files")

main(sys.argv[1:])
