"""The stored examples of run_reports: a reporter written from document 02's prose, position by position, and the examples. From the repository's root it
writes crates/run_reports/stdin and crates/run_reports/stdout."""

def holds(nodes,n,words,node,i,L):
    code,l,r,s=node
    H=lambda c,i: holds(nodes,n,words,nodes[c],i,L)
    if code==16: return (words[l]>>i)&1==1
    if code==17: return False
    if code==18: return True
    if code==0: return not H(l,i)
    if code==1: return i+1==L or H(l,i+1)
    if code==2: return i+1<L and H(l,i+1)
    if code==3: return any(H(l,j) for j in range(i,L))
    if code==4: return all(H(l,j) for j in range(i,L))
    if code==5: return H(l,i) or H(r,i)
    if code==6: return H(l,i) and H(r,i)
    if code==7: return any(H(r,j) and all(H(l,k) for k in range(i,j)) for j in range(i,L))
    if code==8: return all(H(r,j) or any(H(l,k) for k in range(i,j)) for j in range(i,L))
    if code==9: return (not H(l,i)) or H(r,i)
    if code==10: return H(l,i)==H(r,i)
def report(sessions,nodes,root):
    under=set()
    def down(nd):
        kids=[nd[1]] if nd[0]<=4 else [nd[1],nd[2]] if nd[0]<=10 else []
        for c in kids: under.add(c); down(nodes[c])
    down(root)
    out=''
    for j,(L,words) in enumerate(sessions):
        for who,nd in [(str(p),nodes[p]) for p in sorted(under)]+[('root',root)]:
            v=[holds(nodes,L,words,nd,i,L) for i in range(L)]
            h=str(v.index(True)) if True in v else '-'
            f=str(v.index(False)) if False in v else '-'
            out+=f'{j} {who} {h} {f} {sum(v)}\n'
    return out
if __name__=='__main__':
    ALL=2**64-1
    ex=[]
    def add(name,marks,lengths,words,nodes,root,room=None,r=None,m=1,expect=None):
        r=len(lengths) if r is None else r
        sess=[(lengths[j],words[j*m:j*m+m]) for j in range(len(lengths))] if expect is None else None
        t=report(sess,nodes,root) if expect is None else ''
        if room is None: room=len(t)
        ex.append((name,r,m,marks,lengths,words,nodes,root,room,t,expect))
    P=(16,0,0,1);Q=(16,1,0,1)
    add('S1: X (p)',[1,0],[2,2],[2,0],[P],(1,0,0,2))
    add('the same, five bytes more room',[1,0],[2,2],[2,0],[P],(1,0,0,2),room=51)
    add('one byte short',[1,0],[2,2],[2,0],[P],(1,0,0,2),room=45)
    add('the same sessions with exchanged marks: it does not separate',[0,1],[2,2],[2,0],[P],(1,0,0,2))
    add('a shared node: ((p) & (p)) | (p)',[1],[4],[6],[P,(6,0,0,3)],(5,1,0,5))
    add('listed nodes that are not under the root: F (q)',[1],[3],[1,4],[P,Q,(18,0,0,1),(0,0,0,2)],(3,1,0,2),m=2)
    add('a root alone: q',[1,0],[3,1],[1,4,0,1],[],Q,m=2)
    add('an empty session, and one of three: ! (p)',[0,1],[0,3],[0,4],[P],(0,0,0,2))
    add('X (p) on an empty session',[0],[0],[0],[P],(1,0,0,2))
    add('length 64, all set: ! (! (p))',[1],[64],[ALL],[P,(0,0,0,2)],(0,1,0,3))
    add('length 64, the last alone, and none: G (p)',[1,0],[64,64],[1<<63,0],[P],(4,0,0,2))
    add('(p) U ((q) <-> (false)) over places 3 and 4',[1],[5],[15,20],[Q,(17,0,0,1),P,P,(10,0,1,3)],(7,3,4,5),m=2)
    S=([1,0],[2,2],[2,0],[P],(1,0,0,2))
    def ref(name,n,marks=S[0],lengths=S[1],words=S[2],nodes=S[3],root=S[4],room=60,r=2,m=1): add(name,list(marks),list(lengths),list(words),list(nodes),root,room=room,r=r,m=m,expect=n)
    ref('no session: 1',1,r=0)
    ref('33 sessions, which are not there: 1 before 3',1,r=33)
    ref('no proposition: 1',1,m=0)
    ref('a mark missing: 3',3,marks=[1])
    ref('a length of 65, and a mark of 2: 4 before 6',4,marks=[1,2],lengths=[2,65])
    ref('a bit at the length: 5',5,words=[2,4])
    ref('a mark of 2, and a broken list: 6 before 9',6,marks=[1,2],root=(1,1,0,2))
    ref("a child's place not below the count, and no text room: 9 before 3",9,root=(1,1,0,2),room=0)
    ref('a listed node with a fault that is not under the root: 9',9,nodes=[P,(16,1,0,1)])
    ref('no text room: 3',3,room=0)
    def line(name,r,m,marks,lengths,words,nodes,root,room):
        lists=[[r,m],marks,lengths,words]+[[x[k] for x in nodes] for k in range(4)]+[root,[room]]
        return '/'.join([name]+[' '.join(map(str,xs)) for xs in lists])+'\n'
    asked=''
    exp=''
    for name,r,m,marks,lengths,words,nodes,root,room,t,expect in ex:
        asked+=line(name,r,m,marks,lengths,words,nodes,root,room)
        exp+=name+'\n'
        if expect: exp+=f'refused {expect}\n'+'.'*room+'\n'
        elif room<len(t): exp+='refused 3\n'+'.'*room+'\n'
        else: exp+=f'text {len(t)}\n'+t+'.'*(room-len(t))+'\n'
    # 32 sessions whose first half holds p, and 30 negations of it under the root, at places from 1,000 on: as long as a report can be
    chain=[P]*1001+[(0,i-1,0,i-999) for i in range(1001,1030)]
    top=(0,1029,0,31)
    longest=report([(64,[0xffffffff])]*32,chain,top)
    assert len(longest)==15562,len(longest)
    for room in (15562,15561): asked+=line('',32,1,[1]*32,[64]*32,[0xffffffff]*32,chain,top,room)
    exp+='text 15562\nrefused 3\n'
    open('crates/run_reports/stdin','w').write(asked)
    open('crates/run_reports/stdout','w').write(exp)
