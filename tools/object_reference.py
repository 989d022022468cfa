# An independent reading of an object after docs/OBJECT.md.
import struct,sys
class Bad(Exception): pass
def refuse(k,p,l=2): raise Bad((k,p,l))
ABS={0,2,3,4,9,17,18,0x6fff4c03}
# `no` is told of each check that does not hold, in order; by itself it ends the reading at the first
def read(b,no=refuse):
    L=len(b)
    def u16(p): return struct.unpack_from('<H',b,p)[0]
    def u32(p): return struct.unpack_from('<I',b,p)[0]
    def u64(p): return struct.unpack_from('<Q',b,p)[0]
    def i64(p): return struct.unpack_from('<q',b,p)[0]
    if L<64: return no(1,L,1)
    if b[:7]!=bytes([0x7f,0x45,0x4c,0x46,2,1,1]): no(2,0)
    if u16(16)!=1: no(2,16)
    if u16(58)!=64: no(2,58)
    n=u16(60)
    if not 1<=n<=1024: no(3,60)
    off=u64(40)
    if off+64*n>L: return no(1,40,1)
    S=[]
    for i in range(n):
        p=off+64*i
        S.append(dict(p=p,t=u32(p+4),f=u64(p+8),o=u64(p+24),z=u64(p+32),l=u32(p+40),i=u32(p+44),a=u64(p+48),e=u64(p+56)))
    for s in S: s['present']=bool(s['f']&2) and s['t'] not in ABS
    for s in S:
        if s['t'] not in(0,8) and s['o']+s['z']>L: no(1,s['p']+24,1)
    for s in S:
        if s['present']:
            if s['f']>=2**32: no(5,s['p']+8)
            if s['z']>65535: no(3,s['p']+32)
            if s['a'] not in [0]+[1<<k for k in range(17)]: no(5,s['p']+48)
    tab=None
    for i,s in enumerate(S):
        if s['t']==2:
            if tab is not None: no(5,s['p']+4)
            else: tab=i
    syms=[]
    def table(s,limit):
        if s['e']!=24: no(5,s['p']+56)
        if s['z']%24: no(5,s['p']+32)
        if s['z']//24>limit: no(3,s['p']+32)
        return s['z']//24
    if tab is not None:
        t=S[tab]
        for j in range(table(t,65536)):
            q=t['o']+24*j
            x=u16(q+6); v=u64(q+8)
            syms.append((x,v))
            if x in(0,0xfff1,0xfff2): continue
            if x>=0xff00: no(5,q+6)
            elif x>=n: no(4,q+6)
            elif S[x]['present'] and v>S[x]['z']: no(5,q+8)
    out=lambda x: x in(0,0xfff1,0xfff2)
    parts={}
    for i,s in enumerate(S):
        if s['t'] not in(4,9): continue
        if s['i']>=n: no(4,s['p']+44)
        t=S[s['i']]
        if not t['present']: continue
        if s['t']==9: no(5,s['p']+4)
        if s['i'] in parts: no(5,s['p']+44)
        if s['l']!=tab: no(4,s['p']+40)
        c=table(s,65535)
        rs=[]
        for j in range(c):
            q=s['o']+24*j
            if u64(q)>=t['z']: no(5,q)
            y=u64(q+8)>>32
            reached=y<len(syms) and (out(syms[y][0]) or S[syms[y][0]]['present'])
            if not reached: no(4,q+8)
            a=i64(q+16)
            if not -2**31<=a<2**31: no(5,q+16)
            k=u64(q+8)&0xffffffff
            if not reached: continue
            if out(syms[y][0]): rs.append((u64(q),k,1,y,a))
            else: rs.append((u64(q),k,0,syms[y][0],syms[y][1]+a))
        parts[s['i']]=rs
    sig=None
    for i,s in enumerate(S):
        if s['t']==0x6fff4c03:
            if sig is not None: no(5,s['p']+4)
            else: sig=i
    listed=set()
    if sig is not None:
        s=S[sig]; p=s['o']; e=s['o']+s['z']
        while p<e:
            v=0;k=0
            while True:
                if p+k>=e or k>=5: return no(5,p,1)
                v|=(b[p+k]&127)<<(7*k); k+=1
                if b[p+k-1]<128: break
            if v>=2**32: no(5,p,1)
            elif v>=len(syms): no(4,p)
            elif not out(syms[v][0]): listed.add(syms[v][0])
            p+=k
    R=[];B={}
    for i,s in enumerate(S):
        if not s['present']: continue
        root=s['t'] in(14,15,16) or bool(s['f']&0x200000)
        if root: R.append(i)
        fold=s['t']==1 and not root and not s['f']&(1|0x10|0x80|0x400) and sig is not None and i not in listed
        B[i]=(s['f']&~0x200,s['a'] or 1,bytes(s['z']) if s['t']==8 else b[s['o']:s['o']+s['z']],0 if fold else 1,parts.get(i,[]))
    return n,B,R
# all checks that do not hold, as far as one can read on
def faults(b):
    found=[]
    try: read(b,lambda k,p,l=2: found.append((k,p,l)))
    except (struct.error,IndexError,OverflowError): pass
    return found
# the name of a section, or None; of any bytes
def section_name(b,i):
    L=len(b)
    if L<64: return None
    n,names=struct.unpack_from('<HH',b,60)
    off=struct.unpack_from('<Q',b,40)[0]
    def header(k): return off+64*k if k<n and off+64*k+64<=L else None
    p=header(i); t=header(names) if names else None
    if p is None or t is None: return None
    o,z=struct.unpack_from('<QQ',b,t+24)
    if o+z>L: return None
    table=b[o:o+z]; at=struct.unpack_from('<I',b,p)[0]
    end=table.find(b'\0',at) if at<=len(table) else -1
    return None if end<0 else table[at:end]
def text(g):
    n,B,R=g
    w=lambda c,*a: c+''.join('%12d'%x for x in a)+'\n'
    t=w('H',n,len(R))
    for i in sorted(B):
        f,a,by,p,rs=B[i]
        t+=w('S',i,f,a,len(by),len(rs),p)
        for k in range(0,len(by),16): t+='B'+''.join('%4d'%x for x in by[k:k+16])+'\n'
        for r in rs: t+=w('R',*r)
    for r in R: t+=w('T',r)
    return t+w('E',len(B))
if __name__=='__main__':
    b=open(sys.argv[1],'rb').read()
    try: print(text(read(b)),end='')
    except Bad as e: print('refused',e.args[0])
