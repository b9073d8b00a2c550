"""Thin copies of crates: the bodies of functions go, their proofs are holes. thin.py ROOT OUT CRATE.."""
import os, re, shutil, sys
ROOT, OUT = sys.argv[1], sys.argv[2]
CLAUSE = re.compile(r'\b(requires\*?|ensures\*?|decreases)(\s+[A-Za-z_0-9]+)?\s*$|ghost\s+[A-Za-z_0-9]+\s*:\s*$|main\s*=\s*$')
def skip_string(s,i):
    # s[i]=='"'
    i+=1
    while s[i]!='"':
        i+=2 if s[i]=='\\' else 1
    return i+1
def skip_trivia(s,i):
    """If at comment/string/char, the end; else None"""
    if s.startswith('//',i):
        j=s.find('\n',i); return len(s) if j<0 else j
    if s.startswith('/*',i):
        return s.find('*/',i)+2
    if s[i]=='"': return skip_string(s,i)
    m=re.compile(r'b?r(#*)"').match(s,i)
    if m and (i==0 or not (s[i-1].isalnum() or s[i-1]=='_')):
        return s.find('"'+m[1],m.end())+1+len(m[1])
    if s[i]=="'":
        m=re.compile(r"'(\\(x..|u\{[^}]*\}|.)|[^'\\\n])'").match(s,i)
        if m: return m.end()
    return None
def braces(s,i):
    """s[i] is an opening brace of code; the place after its closing one"""
    depth=0
    while True:
        j=skip_trivia(s,i)
        if j: i=j; continue
        if s[i]=='{': depth+=1
        elif s[i]=='}':
            depth-=1
            if depth==0: return i+1
        i+=1
def antt_braces(s,i):
    depth=0
    while True:
        if s[i]=='"': i=skip_string(s,i); continue
        if s[i]=='{': depth+=1
        elif s[i]=='}':
            depth-=1
            if depth==0: return i+1
        i+=1
WORD=re.compile(r'[A-Za-z_][A-Za-z0-9_]*')
def thin(s, keep):
    """text with thin bodies, and list of (module-path inside the file, name)"""
    out=[];i=0;last=0;found=[]
    stack=[] # (end position, name or None)
    def header(i):
        """from the `fn` word at i: (name, body start or None, end of item head, text)"""
        m=re.compile(r'fn\s+([A-Za-z_0-9]+)').match(s,i)
        j=m.end();depth=0;start=j
        while True:
            t=skip_trivia(s,j)
            if t: j=t; continue
            c=s[j]
            if c in '([': depth+=1
            elif c in ')]': depth-=1
            elif c==';' and depth==0: return m[1],None,j+1
            elif c=='{' and depth==0:
                before=s[start:j]
                if CLAUSE.search(before):
                    j=antt_braces(s,j); start=j; continue
                return m[1],j,None
            j+=1
    while i<len(s):
        while stack and i>=stack[-1][0]: stack.pop()
        t=skip_trivia(s,i)
        if t: i=t; continue
        if (s[i].isalpha() or s[i]=='_'):
            m=WORD.match(s,i)
            if not m:
                i+=1; continue
            w=m[0]
            if w=='ghost' and re.compile(r'ghost\s+use\b').match(s,i):
                i=s.find(';',i)+1; continue
            if w=='ghost':
                # ghost NAME = { .. }; or ghost name: {..}
                j=s.find('{',i); k=s.find(';',i)
                if 0<=j and (k<0 or j<k): i=antt_braces(s,j); continue
                i=m.end(); continue
            if w in('law','laws') : i=m.end(); continue
            if w=='fn' and re.compile(r'fn\s+[A-Za-z_]').match(s,i):
                name,body,end=header(i)
                if body is None: i=end; continue
                e=braces(s,body)
                # context
                line_start=s.rfind('\n',0,i)+1
                head=s[line_start:i]; sig=s[i:body]
                ctx=[x[1] for x in stack]
                const='const' in head.split()
                impl=re.search(r'->\s*impl\b',sig)
                if const or impl or any(x is False for x in ctx) or name=='main':
                    i=e; continue
                found.append(([x for x in ctx if x],name,i,body,e))
                out.append(s[last:body]); out.append('{\n    loop {}\n}'); last=e
                i=e; continue
            if w in('impl','trait','mod') and not re.compile(r'mod\s+\w+\s*;').match(s,i):
                j=i;depth=0
                while True:
                    t=skip_trivia(s,j)
                    if t: j=t; continue
                    if s[j]=='{': break
                    if s[j]==';': break
                    j+=1
                if s[j]==';': i=j+1; continue
                e=braces(s,j); head=s[i:j]
                if w=='impl':
                    h=re.sub(r'^impl\s*','',head)
                    if h.startswith('<'):
                        d=0
                        for k,c in enumerate(h):
                            if c=='<': d+=1
                            elif c=='>' and h[k-1]!='-':
                                d-=1
                                if d==0: break
                        h=h[k+1:]
                    m2=re.search(r'\bfor\b',h)
                    if m2: nm=False   # trait impls keep their bodies
                    else: nm=WORD.search(h)[0]
                    stack.append((e,nm))
                elif w=='trait': stack.append((e,False))
                else: stack.append((e,WORD.search(s,i+3)[0]))
                i=j+1; continue
            i=m.end(); continue
        i+=1
    out.append(s[last:])
    return ''.join(out),found
def module_of(rel):
    p=rel[:-3].split('/')
    if p[-1] in('lib','mod','main'): p=p[:-1]
    return p
def is_fn_folder(path):
    return any(os.path.exists(f'{path}/{x}.antt') for x in('Answers','Invariants'))
def do(crate):
    src=f'{ROOT}/crates/{crate}'; dst=f'{OUT}/crates/{crate}'
    shutil.rmtree(dst,ignore_errors=True)
    for part in('specs','proofs'):
        if os.path.isdir(f'{src}/{part}'): shutil.copytree(f'{src}/{part}',f'{dst}/{part}')
    n=0
    cycles={}
    home={}
    for at,_,files in os.walk(f'{src}/src'):
        for f in files:
            if f.endswith('.rt'):
                rel=os.path.relpath(f'{at}/{f}',f'{src}/src')
                for m in re.finditer(r'(?m)^(?:pub(?:\([a-z ]+\))? )?(?:struct|enum) (\w+)',open(f'{at}/{f}',encoding='utf-8').read()):
                    home.setdefault(m[1],module_of(rel))
    for at,_,files in os.walk(f'{src}/src'):
        for f in files:
            if not f.endswith('.rt'): continue
            rel=os.path.relpath(f'{at}/{f}',f'{src}/src')
            s=open(f'{at}/{f}',encoding='utf-8').read()
            t,found=thin(s,None)
            t=re.sub(r'^\s*#\[cycle\([^)]*\)\]\n','',t,flags=re.M)
            t=re.sub(r'^\s*#\[measure\([^)]*\)\]\n','',t,flags=re.M)
            os.makedirs(os.path.dirname(f'{dst}/src/{rel}'),exist_ok=True)
            open(f'{dst}/src/{rel}','w',encoding='utf-8').write(t)
            for ctx,name,*_ in found:
                path=[*(home[ctx[0]] if len(ctx)==1 and ctx[0] in home else module_of(rel)),*ctx,name]
                d=f'{dst}/proofs/'+'/'.join(path)
                if os.path.isdir(d):
                    for x in('Answers','Invariants'):
                        if os.path.exists(f'{d}/{x}.antt'): os.remove(f'{d}/{x}.antt')
                os.makedirs(d,exist_ok=True)
                mod='.'.join(path)
                open(f'{d}/Proof.antt','w',encoding='utf-8').write(f'use Rattle.{crate}.proofs.{mod}.Statement.{{statement}}\n\npub {name}_spec : {{M : Type 1}} → statement M\n{name}_spec = ?\n')
                n+=1
    # cycles go
    for at,dirs,files in os.walk(f'{dst}/proofs'):
        for x in list(dirs):
            if x.startswith('+'): shutil.rmtree(f'{at}/{x}'); dirs.remove(x)
    print(crate,n)
for c in sys.argv[3:]: do(c)
