# Images of a machine, worked out from their description alone.
import hashlib, struct, uuid, zlib
sha256 = lambda b: hashlib.sha256(b).digest()
def fill(number, tag, n):
    return bytes((31*number + 17*tag + 7*i + i//256) % 256 for i in range(n))
def words(*xs): return b''.join(struct.pack('<I', x) for x in xs)
def packed_key(offset): return words(offset,0, 520,0, 4,0, 1,0)
def signature(offset, size, data): return words(offset,0, size,0, data,0)
def area(at, size, name): return words(at, size) + name.encode().ljust(32, b'\0') + b'\0\0'
def flash_map():
    areas = [(8192,16384,'GBB'),(32768,8192,'RW_NVRAM'),(65536,65536,'VBLOCK_A'),(131072,131072,'FW_MAIN_A'),
             (262144,65536,'VBLOCK_B'),(327680,131072,'FW_MAIN_B')]
    return (b'__FMAP__' + bytes([1,1]) + struct.pack('<QI', 0, 1048576) + b'FMAP'.ljust(32,b'\0') + struct.pack('<H',6)
            + b''.join(area(*a) for a in areas))
def gbb(number):
    hwid = b'DEMO TEST 1234'
    head = (b'$GBB' + struct.pack('<HH',1,2) + words(128,0, 128,16, 144,552, 1248,0, 696,552) + sha256(hwid) + bytes(48))
    return head + hwid + bytes(2) + packed_key(32) + fill(number,1,520) + packed_key(32) + fill(number,2,520)
nv_page = bytes.fromhex('4e565047') + bytes(11) + b'\x77' + b'\x40' + bytes(6) + b'\x02' + bytes(7) + b'\xa5'
def keyblock(number, tag, flags=7, key=3):
    signed = (b'CHROMEOS' + words(2,1, 952,0) + signature(672,256,632) + signature(584,64,632) + words(flags,0)
              + packed_key(32) + fill(number,key,520))
    return signed, signed + hashlib.sha512(signed).digest() + fill(number,tag,256)
def preamble(number, tag, body_tag, body_size):
    signed = (words(1140,0) + signature(876,256,884) + words(2,1, 1 + number % 8, 0) + packed_key(60)
              + signature(548,256,body_size) + words(0) + fill(number,4,520) + fill(number,body_tag,256))
    return signed, signed + fill(number,tag,256)
def body(number, tag): return fill(number, tag, 65536 + 512*(number % 64))
SLOTS = [(65536,131072,7,21,22,23),(262144,327680,8,24,25,26)]
def flash(number):
    image = bytearray(b'\xff' * 1048576)
    def put(at, b): image[at:at+len(b)] = b
    put(4096, flash_map()); put(8192, gbb(number)); put(32768, nv_page)
    for vblock, main, b, k, p, s in SLOTS:
        put(vblock, keyblock(number,k)[1] + preamble(number,p,s,len(body(number,b)))[1])
        put(main, body(number,b))
    return bytes(image)
# A kernel: its version, the flags, the signer and the data key of its keyblock, and the tags of its body and its signatures.
def kernels(number):
    m = number % 8
    return [(2 + m,7,4,5,9,27,28,29), (1 + m,7,4,5,10,30,31,32), (1,11,2,6,11,33,34,35)]
def kernel_body(number, tag): return fill(number, tag, 131072 + 512*(number % 16))
def kernel_preamble(number, version, tag, body_tag):
    size = 131072 + 512*(number % 16)
    signed = (words(64584,0) + signature(364,256,372) + words(2,2, version,0) + struct.pack('<QQII', 0x100000, 0, 0, 0)
              + signature(44,256,size) + struct.pack('<QII', 0, 0, 0) + words(0) + fill(number,body_tag,256))
    return signed, (signed + fill(number,tag,256)).ljust(64584, b'\0')
def partition(number, kernel):
    version, flags, signer, key, b, k, p, s = kernel
    return keyblock(number,k,flags,key)[1] + kernel_preamble(number,version,p,s)[1] + kernel_body(number,b)
KINDS = {'kernel': 'fe3a2a5d-4f32-41a7-b725-accc3285a309', 'rootfs': '3cb8e202-3b7e-47dd-8a3c-7ff2a13cfcec',
         'efi': 'c12a7328-f81f-11d2-ba4b-00a0c93ec93b', 'data': 'ebd0a0a2-b9e5-4433-87c0-68b6b72699c7'}
ENTRIES = [(1,8192,4096,'data','STATE',0),(2,64,512,'kernel','KERN-A',0x102 << 48),(3,2048,1024,'rootfs','ROOT-A',0),
           (4,576,512,'kernel','KERN-B',0x101 << 48),(5,3072,1024,'rootfs','ROOT-B',0),(6,1088,1,'kernel','KERN-C',0),
           (7,1089,1,'rootfs','ROOT-C',0),(8,1090,1,'data','OEM',0),(9,1091,1,'data','reserved',0),(10,1092,1,'data','reserved',0),
           (11,1093,1,'data','RWFW',0),(12,1100,64,'efi','EFI-SYSTEM',0)]
def guid(number, tag): return uuid.UUID(bytes=fill(number,tag,16), version=4)
def drive(number, tag, entries, partitions):
    image, table = bytearray(16384*512), bytearray(16384)
    for i, begin, size, kind, name, attributes in entries:
        table[128*(i-1):128*i] = (uuid.UUID(KINDS[kind]).bytes_le + guid(number,tag+i).bytes_le
            + struct.pack('<QQQ', begin, begin+size-1, attributes) + name.encode('utf-16-le').ljust(72, b'\0'))
    def header(my, other, at):
        fields = lambda crc: (b'EFI PART' + words(0x10000, 92, crc, 0) + struct.pack('<QQQQ', my, other, 34, 16350)
            + guid(number,tag).bytes_le + struct.pack('<Q', at) + words(128, 128, zlib.crc32(table)))
        return fields(zlib.crc32(fields(0)))
    def put(sector, b): image[512*sector:512*sector+len(b)] = b
    put(1, header(1, 16383, 2)); put(2, table); put(16351, table); put(16383, header(16383, 1, 16351))
    for sector, content in partitions: put(sector, content)
    return bytes(image)
def disk(number):
    a, b, _ = kernels(number)
    return drive(number, 40, ENTRIES, [(64, partition(number,a)), (576, partition(number,b))])
def stick(number): return drive(number, 80, [ENTRIES[1]], [(64, partition(number, kernels(number)[2]))])
def rows(number):
    root, data, out = fill(number,1,520), fill(number,3,520), []
    for vblock, main, b, k, p, s in SLOTS:
        out += [(root, keyblock(number,k)[0], fill(number,k,256)),
                (data, preamble(number,p,s,len(body(number,b)))[0], fill(number,p,256)),
                (data, body(number,b), fill(number,s,256))]
    for version, flags, signer, key, b, k, p, s in kernels(number):
        data = fill(number,key,520)
        out += [(fill(number,signer,520), keyblock(number,k,flags,key)[0], fill(number,k,256)),
                (data, kernel_preamble(number,version,p,s)[0], fill(number,p,256)),
                (data, kernel_body(number,b), fill(number,s,256))]
    return [(4, sha256(key), sha256(message), sha256(sig)) for key, message, sig in out]

if __name__ == '__main__': # what crates/make_core is compared with
    for number in (1, 8, 4294967295):
        print(number, *(sha256(image(number)).hex() for image in (flash, disk, stick)))
    for algorithm, key, digest, sig in rows(1): print(algorithm, key.hex(), digest.hex(), sig.hex())
    print(sha256(b''.join(k + d + s for _, k, d, s in rows(1))).hex())
