# Writes a pcap capture of twenty packets, and a pcapng capture of these and five more in sections of both byte orders:
# python3 captures.py data/small.pcap data/small.pcapng
import struct,sys
def ck(b):
    s=sum((b[i]<<8)+(b[i+1] if i+1<len(b) else 0) for i in range(0,len(b),2))
    while s>>16: s=(s&0xffff)+(s>>16)
    return 0xffff-s
def ip4(proto,pl,frag=0,src=b"\xc0\xa8\x01\x01",dst=b"\xc0\xa8\x01\x02",ident=1):
    h=struct.pack("!BBHHHBBH4s4s",0x45,0,20+len(pl),ident,frag,64,proto,0,src,dst)
    return h[:10]+struct.pack("!H",ck(h))+h[12:]+pl
def eth(t,pl,vlan=None):
    b=bytes.fromhex("ffffffffffff020000000001")
    if vlan is not None: b+=struct.pack("!HH",0x8100,vlan)
    return b+struct.pack("!H",t)+pl
udp=lambda s,d,p: struct.pack("!HHHH",s,d,8+len(p),0)+p
tcp=lambda s,d,p: struct.pack("!HHIIBBHHH",s,d,1,2,0x50,0x12,1000,0,0)+p
packets=[(1600000000,100,eth(0x800,ip4(17,udp(21,1234,b"12345678")),5),None),
(1600000000,4311,eth(0x800,ip4(6,tcp(80,4000,b"hello"))),None),
(1599999999,999999,eth(0x806,bytes.fromhex("0001080006040001020000000001c0a80101000000000000c0a80102")),None),
(1600000001,50,eth(0x800,ip4(17,udp(21,1234,b"12345678")))[:30],70),
(1600000002,0,b"\x01\x02",None),
(1600000002,5,eth(0x86dd,bytes.fromhex("6000000000083a40")+bytes(15)+b"\1"+bytes(15)+b"\2"+bytes.fromhex("8000000000010001")),None),
(1600000002,10,eth(0x806,bytes.fromhex("0001080006040002020000000002c0a80102020000000001c0a80101")),None),
(1600000002,20,eth(0x800,ip4(17,bytes(24),0x2000|185,ident=4660)),None),
(1600000002,30,eth(0x800,ip4(1,bytes.fromhex("0303000000000000")+ip4(17,udp(21,1234,b"")))),None),
(1600000002,40,eth(0x86dd,bytes.fromhex("6000000000180040")+bytes.fromhex("20010db8000000000001000000000001fe80000000000000000000ff00000002")
+bytes.fromhex("2c00010400000000")+bytes.fromhex("11000009deadbeef")+bytes(8)),None),
(1600000002,50,eth(0x88e5,bytes.fromhex("2c00000000070200000000010001")+bytes(20)),None),
(1600000002,60,eth(0x88cc,bytes(46)),None),
(1600000002,70,eth(0x800,b"\x65"+ip4(17,udp(21,1234,b""))[1:]),None)]
# Fragments: of a datagram, of a datagram whose second fragment comes 31 seconds after the first, one of odd length, and
# those of a TCP segment over IPv6, the last one first.
halves=lambda p,n,ident: (ip4(17,p[:n],0x2000,ident=ident),ip4(17,p[n:],n//8,ident=ident))
ip6=lambda n,p: bytes.fromhex("60000000")+struct.pack("!HBB",len(p),n,64)+bytes(15)+b"\1"+bytes(15)+b"\2"+p
one,late=halves(udp(21,1234,b"a datagram in two"),16,77),halves(udp(21,1234,b"a late one"),16,78)
segment=tcp(80,4000,b"in two")
packets+=[(1600000002,80,eth(0x800,one[0]),None),
(1600000002,90,eth(0x800,one[1]),None),
(1600000002,100,eth(0x800,late[0]),None),
(1600000003,0,eth(0x800,ip4(17,bytes(9),0x2000,ident=79)),None),
(1600000033,200,eth(0x800,late[1]),None),
(1600000033,300,eth(0x86dd,ip6(44,bytes.fromhex("0600001800000009")+segment[24:])),None),
(1600000033,400,eth(0x86dd,ip6(44,bytes.fromhex("0600000100000009")+segment[:24])),None)]
def pcap(order="<",nano=False,link=1):
    out=struct.pack(order+"IHHIIII",0xa1b23c4d if nano else 0xa1b2c3d4,2,4,0,0,65535,link)
    for s,f,b,o in packets: out+=struct.pack(order+"IIII",s,f*(1000 if nano else 1),len(b),o or len(b))+b
    return out
def block(order,number,body):
    body+=bytes(-len(body)%4)
    return struct.pack(order+"II",number,12+len(body))+body+struct.pack(order+"I",12+len(body))
option=lambda order,code,value: struct.pack(order+"HH",code,len(value))+value+bytes(-len(value)%4)
section=lambda order: block(order,0x0a0d0d0a,struct.pack(order+"IHHq",0x1a2b3c4d,1,0,-1))
interface=lambda order,link,options=b"": block(order,1,struct.pack(order+"HHI",link,0,65535)+options)
def enhanced(order,at,ticks,b,original=None):
    return block(order,6,struct.pack(order+"IIIII",at,ticks>>32,ticks&0xffffffff,len(b),original or len(b))+b)
# Interfaces: Ethernet with timestamps in microseconds; an unsupported link type, in nanoseconds; and in the second section
# raw IP, in units of 2^-20 s with an offset in seconds.
def pcapng():
    out=section("<")+interface("<",1)+interface("<",105,option("<",2,b"any")+option("<",9,b"\x09")+option("<",0,b""))
    out+=block("<",4,bytes(4))
    for s,f,b,o in packets: out+=enhanced("<",0,s*1000000+f,b,o)
    out+=enhanced("<",1,1600000034000001500,bytes(20))+block("<",3,struct.pack("<I",len(packets[1][2]))+packets[1][2])
    ip,ticks=ip4(17,udp(21,1234,b"12345678")),((1<<20)+3)*34
    out+=section(">")+interface(">",101,option(">",14,struct.pack(">q",1600000000))+option(">",9,b"\x94"))
    out+=enhanced(">",0,ticks,ip)+enhanced(">",0,ticks+1,ip[:30],len(ip))+block(">",3,struct.pack(">I",len(ip))+ip)
    return out
open(sys.argv[1],"wb").write(pcap())
open(sys.argv[2],"wb").write(pcapng())
