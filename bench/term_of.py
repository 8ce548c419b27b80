#!/usr/bin/env python3
"""Writes the term of a module as crates/js_run_examples has it, from what `lava tree` prints.

    bench/term_of.py FILE.js SLOTS

SLOTS are the slots of the module: `exports`, `require`, `module`, and one for each name that it declares. The lines go below a definition
`abbrev pub NAME_module : Template`. Getters, setters and templates with a rest parameter or defaults may want a hand.
"""
import re
import subprocess
import sys

COMMON={"Object.prototype":"OBJECT_PROTOTYPE","_open":"OPEN","_base":"BASE","_object":"OBJECT","_fail":"FAIL","_isObject":"IS_OBJECT"}
OPS={"+":"Add","-":"Subtract","<":"Less","===":"StrictlyEqual","!==":"StrictlyUnequal","==":"LooselyEqual"}
UN={'+':'Plus','typeof':'Typeof','-':'Minus','!':'LogicalNot'}
LOG={'??':'Coalesce','&&':'And','||':'Or'}
def parse(lines):
    root=[]; stack=[(-1,root)]
    for l in lines:
        d=(len(l)-len(l.lstrip()))//2
        node=(l.strip(),[])
        while stack[-1][0]>=d: stack.pop()
        stack[-1][1].append(node)
        stack.append((d,node[1]))
    return root[0]
def codes(s): return ["codes", f'"{s}"'] if s else "[]"
class L(list): pass
def atoms(h): return re.findall(r'"[^"]*"|\S+', h)
def q(s): return s[1:-1]
def opt(c,i): return "None" if i>=len(c) or c[i][0]=="None" else ["Some", t(c[i])]
def name_of(n):
    return n[0].startswith('Lit "') 
def t(n):
    h,c=n; a=atoms(h); w=a[0]
    if w=="Lit":
        v=h[4:]
        if v.startswith('"'): return ["text", codes(q(v))]
        if v.startswith("%"): return ["common", COMMON[v[1:-1]]]
        if v in("true","false"): return ["truth", v]
        if v in("null","undefined"): return v
        if v=="Symbol.iterator": return "iterator"
        return ["number", v]
    if w=="Global": return ["global" if len(a)==2 else "soft_global", codes(a[1])]
    if w=="Local": return ["local", a[1], a[2]]
    if w=="Init": return ["init", a[1], a[2], t(c[0])]
    if w=="SetLocal": return ["set_local", a[1], a[2], 'true' if len(a)>3 else 'false', t(c[0])]
    if w=="SetGlobal": return ["set_global", codes(a[1]), t(c[0])]
    if w=="Seq": return ["seq", L(t(x) for x in c)]
    if w=="Scope": return ["scope", a[1], t(c[0])]
    if w in("Fresh","This","NewTarget","Outside"): return {"Fresh":"fresh","This":"this","NewTarget":"new_target","Outside":"outside"}[w]
    if w=="Call": return ["call", t(c[0]), L(t(x) for x in c[1:])]
    if w=="CallOn":
        if c[0][0]=="Global console" and c[1][0]=='Lit "log"': return ["console_log", L(t(x) for x in c[2:])]
        return ["call_on", t(c[0]), t(c[1]), L(t(x) for x in c[2:])]
    if w=="CallSuper": return ["call_super", t(c[0]), L(t(x) for x in c[1:])]
    if w=="New": return ["new", t(c[0]), L(t(x) for x in c[1:])]
    if w=="SuperNew": return ["super_new", L(t(x) for x in c)]
    if w in("Get","Put","Delete","SuperGet","Throw"): return [{"Get":"get","Put":"put","Delete":"delete","SuperGet":"super_get","Throw":"throw"}[w]]+[t(x) for x in c]
    if w=="Jump":
        if a[1]=="Return": return ["return", t(c[0])] if c and c[0][0]!="None" else "return_nothing"
        return [a[1].lower(), codes(q(a[2]))]
    if w=="If": return ["branch", t(c[0]), t(c[1]), opt(c,2)]
    if w=="Try": return ["try", t(c[0]), opt(c,1), opt(c,2)]
    if w=="Loop": return ["loop", L(codes(q(x)) for x in a[1:] if x.startswith('"')), a[-1], t(c[0]), opt(c,1), t(c[2])]
    if w=="Label": return ["label", codes(q(a[1])), t(c[0])]
    if w=="Binary": return ["binary", "op."+OPS[a[1]], t(c[0]), t(c[1])]
    if w=="Unary": return ["unary", "unop."+UN[a[1]], t(c[0])]
    if w=="Short": return ["short", "logical."+LOG[a[1]], t(c[0]), t(c[1])]
    if w=="Native": return ["native_of", "native."+a[1][0].upper()+a[1][1:], L(t(x) for x in c)]
    if w=="Func": return ["func", t(c[0])]
    if w=="Template": return ["template", "kind."+a[1], codes(q(a[2])), a[3], a[4], t(c[0])]
    if w=="Define":
        if c[0][0]=="Native makeObject" and c[0][1][0][0]=="Lit %Object.prototype%": return ["object", L(t(x) for x in c[1:])]
        if c[0][0]=="Native makeArray": return ["array", L(t(x) for x in c[1:])]
        return ["define", t(c[0]), L(t(x) for x in c[1:])]
    if w=="Class": return ["class_of", codes(q(a[1])), opt(c,0), opt(c,1), L(t(x) for x in c[2:])]
    if w=="Data": return ["data_part", t(c[0]), t(c[1])]
    if w in("Method","Getter","Setter"): return [w.lower(), 'true' if 'static' in h else 'false', t(c[0]), t(c[1])]
    if w in("Spread","Item"): return [w.lower(), t(c[0])]
    raise Exception(h)
def flat(d, top=False):
    if isinstance(d,str): return d
    if isinstance(d,L):
        if not d: return "[]"
        return "(" + " ∷ ".join(flat(x,True) for x in d) + " ∷ [])"
    s=" ".join(flat(x) for x in d)
    return s if top else f"({s})"
LIM=150
def show(d, ind, top=False, suffix=""):
    """lines"""
    s=flat(d,top)
    if len(s)+ind+len(suffix)<=LIM or isinstance(d,str): return [" "*ind+s+suffix]
    if isinstance(d,L):
        out=[]
        for i,x in enumerate(d):
            sub=show(x, ind+2, True)
            out+=[*sub]
            out[-1]+=" ∷"
        out[0]=" "*ind+"( "+out[0].lstrip()
        out[-1]=out[-1][:-2]+" ∷ [])"+suffix
        return out
    # application: head with leading simple args, then the rest on own lines
    head=[]; rest=list(d)
    while rest and (isinstance(rest[0],str) or len(flat(rest[0]))<28 ) and len(rest)>1: head.append(flat(rest.pop(0)))
    o="" if top else "("
    out=[" "*ind+o+" ".join(head)]
    for x in rest: out+=show(x, ind+2)
    out[-1]+=("" if top else ")")+suffix
    return out
def module(f, slots):
    out=subprocess.run(["lava","tree",f],capture_output=True,text=True).stdout.rstrip("\n").split("\n")
    r=parse(out)
    return show(["module_of",str(slots),L(t(x) for x in r[1])],4,True)
if __name__=="__main__":
    print("\n".join(module(sys.argv[1],sys.argv[2])))
