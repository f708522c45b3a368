"""The captures of the protocols of hosts, from the layouts and examples of their standards: `services()` gives names and bytes."""
import struct

CLIENT, SERVER = bytes([192, 0, 2, 1]), bytes([192, 0, 2, 53])
CLIENT6, SERVER6 = bytes.fromhex("20010db8000000000000000000000001"), bytes.fromhex("20010db8000000000000000000000053")


def x(text):
    return bytes.fromhex(text)


def u16(*numbers):
    return struct.pack(f">{len(numbers)}H", *numbers)


def u32(*numbers):
    return struct.pack(f">{len(numbers)}I", *numbers)


def checksum(data):
    data += b"\0" * (len(data) % 2)
    total = sum(struct.unpack(f">{len(data) // 2}H", data))
    while total > 0xFFFF:
        total = (total >> 16) + (total & 0xFFFF)
    return 0xFFFF - total


def frame(protocol, data, source, destination, place):
    """A segment in IP in Ethernet, with its checksum put at a place of the segment."""
    if len(source) == 4:
        pseudo = source + destination + u16(protocol, len(data))
    else:
        pseudo = source + destination + u32(len(data), protocol)
    total = checksum(pseudo + data) or 0xFFFF
    data = data[:place] + u16(total) + data[place + 2 :]
    if len(source) == 4:
        front = x("4500") + u16(20 + len(data), 1, 0) + bytes([64, protocol])
        packet = x("0800") + front + u16(checksum(front + b"\0\0" + source + destination)) + source + destination
    else:
        packet = x("86dd") + u32(0x60000000) + u16(len(data)) + bytes([protocol, 64]) + source + destination
    return x("020000000002" "020000000001") + packet + data


def asks(sport, dport, data, ends=(CLIENT, SERVER)):
    """A datagram of the client."""
    return frame(17, u16(sport, dport, 8 + len(data), 0) + data, *ends, 6)


def answers(sport, dport, data, ends=(CLIENT, SERVER)):
    return asks(sport, dport, data, ends[::-1])


def flow(client, server, *parts):
    """The segments of a connection: of the client where `>` stands before the data, of the server where `<` does."""
    numbers = {">": 1000, "<": 5000}
    for side, data in parts:
        back = side == "<"
        ports = (server, client) if back else (client, server)
        ends = (SERVER, CLIENT) if back else (CLIENT, SERVER)
        head = u16(*ports) + u32(numbers[side], numbers["<" if side == ">" else ">"]) + x("5018ffff00000000")
        yield frame(6, head + data, *ends, 16)
        numbers[side] += len(data)


def capture(*packets):
    text = struct.pack("<IHHiIII", 0xA1B2C3D4, 2, 4, 0, 0, 65535, 1)
    for number, packet in enumerate(packets):
        text += struct.pack("<IIII", 1700000000 + number, 0, len(packet), len(packet)) + packet
    return text


def labels(name):
    """A domain name."""
    return b"".join(bytes([len(part)]) + part.encode() for part in name.split(".") if part) + b"\0"


def tagged(tag, data):
    """A value with tag and length (BER)."""
    return bytes([tag, len(data)]) + data if len(data) < 128 else bytes([tag, 0x82]) + u16(len(data)) + data


def dhcp6():
    def option(code, data):
        return u16(code, len(data)) + data

    client, server = x("0001000123456789" "02000000000a"), x("00030001" "020000000035")
    solicit = x("01abcdef") + option(1, client) + option(6, x("0017001800270010")) + option(8, x("0064"))
    solicit += option(39, b"\x01" + labels("host.example")) + option(3, u32(7, 0, 0)) + option(25, u32(8, 0, 0))
    address = option(5, CLIENT6 + u32(3600, 7200))
    prefix = option(26, u32(3600, 7200) + b"\x38" + x("20010db8010000000000000000000000"))
    reply = x("07abcdef") + option(1, client) + option(2, server) + option(7, b"\xff")
    reply += option(3, u32(7, 1800, 2880) + address) + option(25, u32(8, 1800, 2880) + prefix)
    reply += option(23, SERVER6 + CLIENT6) + option(24, labels("example.com") + labels("example.net")) + option(13, b"\0\0ok")
    relayed = x("0c00") + CLIENT6 + SERVER6 + option(9, solicit)
    ends = (CLIENT6, SERVER6)
    return [asks(546, 547, solicit, ends), answers(547, 546, reply, ends), asks(547, 547, relayed, ends)]


def netbios():
    def name(text, kind):
        padded = text.ljust(15).encode() + bytes([kind])
        return b"\x20" + b"".join(bytes([0x41 + (byte >> 4), 0x41 + (byte & 15)]) for byte in padded) + b"\0"

    query = x("1234" "0110" "0001" "0000" "0000" "0000") + name("FRED", 0x20) + x("00200001")
    answer = x("1234" "8500" "0000" "0001" "0000" "0000") + name("FRED", 0x20) + x("00200001") + u32(300000) + u16(6, 0) + SERVER
    names = b"FRED           \x00" + x("0400") + b"WORKGROUP      \x00" + x("8400")
    status = b"\x02" + names + x("020000000035") + bytes(40)
    told = x("1235" "8400" "0000" "0001" "0000" "0000") + name("*", 0) + x("00210001") + u32(0) + u16(len(status)) + status
    ends = name("FRED", 0) + name("WORKGROUP", 0x1D)
    datagram = x("110a0001") + CLIENT + u16(138, len(ends) + 32, 0) + ends + b"\xffSMB" + x("25") + bytes(27)
    session = flow(50017, 139, (">", x("81000044") + name("FRED", 0x20) + name("ME", 0)), ("<", x("82000000")))
    return [asks(137, 137, query), answers(137, 137, answer), answers(137, 137, told), asks(138, 138, datagram), *session]


def dns_records():
    def record(name, kind, data):
        return labels(name) + u16(kind, 1) + u32(300) + u16(len(data)) + data

    def text(value):
        return bytes([len(value)]) + value

    def parameter(key, data):
        return u16(key, len(data)) + data

    https = u16(1) + labels("") + parameter(1, text(b"h2") + text(b"h3")) + parameter(3, u16(8443))
    https += parameter(4, CLIENT) + parameter(5, b"abc") + parameter(6, CLIENT6)
    rrsig = u16(1) + bytes([13, 2]) + u32(300, 1700100000, 1699000000) + u16(4711) + labels("example.com") + bytes(range(64))
    nsec = labels("b.example.com") + x("0006" "400000000003")
    nsec3 = x("0100000c") + text(x("aabbccdd")) + text(bytes(range(20))) + x("0002" "4001")
    naptr = u16(100, 10) + text(b"u") + text(b"E2U+sip") + text(b"!^.*$!sip:a@b.example!") + labels("")
    records = [record("example.com", 65, https), record("example.com", 46, rrsig), record("a.example.com", 47, nsec)]
    records += [record("x.example.com", 50, nsec3), record("_443._tcp.example.com", 52, x("030101") + bytes(range(32)))]
    records += [record("example.com", 44, x("0402") + bytes(range(32))), record("1.example.com", 35, naptr)]
    message = x("0001" "8180") + u16(1, len(records), 0, 0) + labels("example.com") + u16(255, 1) + b"".join(records)
    return [answers(53, 40000, message)]


def lines():
    search = b'M-SEARCH * HTTP/1.1\r\nHOST: 239.255.255.250:1900\r\nMAN: "ssdp:discover"\r\nMX: 1\r\nST: ssdp:all\r\n\r\n'
    found = b"HTTP/1.1 200 OK\r\nST: upnp:rootdevice\r\nLOCATION: http://192.0.2.53/d.xml\r\n\r\n"
    yield asks(50000, 1900, search)
    yield answers(1900, 50000, found)
    describe = b"DESCRIBE rtsp://192.0.2.53/a RTSP/1.0\r\nCSeq: 2\r\n\r\n"
    described = b"RTSP/1.0 200 OK\r\nCSeq: 2\r\nContent-Length: 5\r\n\r\nv=0\r\n"
    yield from flow(50001, 554, (">", describe), ("<", described), ("<", b"$\0\0\4abcd"))
    yield from flow(50002, 23, ("<", x("fffd01fffd1f") + b"login: "), (">", x("fffb1f" "fffa1f00500018fff0")), (">", b"fred\r\n"))
    yield from flow(50003, 513, (">", b"\0fred\0fred\0xterm/38400\0"), ("<", b"\0"))
    yield from flow(50004, 79, (">", b"fred\r\n"), ("<", b"Login: fred\r\nNever logged in.\r\n"))
    yield from flow(50005, 143, ("<", b"* OK IMAP4rev1 ready\r\n"), (">", b"a1 LOGIN fred secret\r\n"), ("<", b"a1 OK done\r\n"))
    yield from flow(50006, 110, ("<", b"+OK ready\r\n"), (">", b"USER fred\r\n"), ("<", b"+OK\r\n"))
    yield from flow(50007, 6667, (">", b"NICK fred\r\nUSER fred 0 * :Fred\r\n"), ("<", b":irc.example 001 fred :Welcome\r\n"))
    yield from flow(50008, 6379, (">", b"*2\r\n$3\r\nGET\r\n$1\r\na\r\n"), ("<", b"$5\r\nhello\r\n"))
    yield from flow(50009, 11211, (">", b"set a 0 60 5\r\nhello\r\n"), ("<", b"STORED\r\n"))
    get = x("8000" "0001" "00" "00" "0000" "00000001" "00000007" "0000000000000000") + b"a"
    got = x("8100" "0001" "04" "00" "0000" "0000000a" "00000007" "0000000000000001") + x("deadbeef") + b"ahello"
    yield from flow(50010, 11211, (">", get), ("<", got))


def mqtt():
    def message(head, data):
        size, length = len(data), b""
        while True:
            size, low = divmod(size, 128)
            length += bytes([low | (128 if size else 0)])
            if not size:
                return bytes([head]) + length + data

    def text(value):
        return u16(len(value)) + value

    connect = message(0x10, text(b"MQTT") + x("04c2003c") + text(b"sensor1") + text(b"fred") + text(b"secret"))
    connect5 = message(0x10, text(b"MQTT") + x("0502003c" "05" "110000000a") + text(b"sensor2"))
    publish = message(0x32, text(b"a/b") + x("0002") + b"21.5" * 40) + message(0x30, text(b"a/c") + b"22")
    yield from flow(50011, 1883, (">", connect), ("<", x("20020000")), (">", message(0x82, x("0001") + text(b"a/b") + b"\1")),
                    ("<", message(0x90, x("000101"))), ("<", publish), (">", x("40020002")), (">", x("c000e000")))
    # version 5, where each message has properties: a subscription has its number, a value says that it is text
    yield from flow(50012, 1883, (">", connect5), ("<", x("2003000000")), (">", message(0x82, x("0001" "020b01") + text(b"a/#") + b"\1")),
        ("<", message(0x90, x("0001" "00" "01"))), (">", message(0x32, text(b"a/b") + x("0002" "020101") + b"21.5")),
        ("<", message(0xB0, x("0003" "00" "00"))))


def coap():
    get = x("44017d34" "20000001") + b"\xbbtemperature" + b"\x44u=mC"
    content = x("64457d34" "20000001") + b"\xc0\xff22.3 C"
    long = x("40017d35") + b"\xb3abc" + b"\x0d\x08longer-than-thirteen-" + x("d1062a")
    return [asks(50013, 5683, get), answers(5683, 50013, content), asks(50013, 5683, long)]


def modbus():
    read, values = x("0001" "0000" "0006" "11" "03006b0003"), x("0001" "0000" "0009" "11" "0306022b00000064")
    write = x("0002" "0000" "0006" "11" "0600010003")
    several, done = x("0003" "0000" "000b" "11" "10000100020400" "0a0102"), x("0003" "0000" "0006" "11" "1000010002")
    coils, refused = x("0004" "0000" "0006" "11" "0100130025"), x("0004" "0000" "0003" "11" "8102")
    return flow(50014, 502, (">", read), ("<", values), (">", write), ("<", write), (">", several), ("<", done), (">", coils), ("<", refused))


def postgresql():
    def message(kind, data):
        return kind + u32(4 + len(data)) + data

    words = b"user\0fred\0database\0test\0\0"
    start = u32(8 + len(words)) + u16(3, 0) + words
    ready = message(b"Z", b"I")
    hello = message(b"R", u32(0)) + message(b"S", b"client_encoding\0UTF8\0") + message(b"K", u32(4711, 99)) + ready
    column = u16(1) + b"n\0" + u32(0) + u16(0) + u32(23) + u16(4) + u32(0xFFFFFFFF) + u16(0)
    rows = message(b"T", column) + message(b"D", u16(1) + u32(2) + b"42") + message(b"C", b"SELECT 1\0") + ready
    error = message(b"E", b'SERROR\0C42703\0Mcolumn "x" does not exist\0\0') + ready
    return flow(50015, 5432, (">", start), ("<", hello), (">", message(b"Q", b"select 42\0")), ("<", rows),
                (">", message(b"Q", b"select x\0")), ("<", error), (">", message(b"X", b"")))


def mysql():
    def message(number, data):
        return struct.pack("<I", len(data))[:3] + bytes([number]) + data

    greeting = b"\x0a8.0.35\0" + x("08000000") + b"saltsalt\0" + x("ffff" "21" "0200" "ffc7" "15") + bytes(10)
    greeting += b"moresaltmore\0mysql_native_password\0"
    login = x("85a67f00" "00000001" "21") + bytes(23) + b"fred\0" + b"\x14" + bytes(20)
    column = x("03") + b"def" + x("000000" "0131" "00" "0c" "3f00" "01000000" "08" "8100" "00" "0000")
    return flow(50016, 3306, ("<", message(0, greeting)), (">", message(1, login)), ("<", message(2, x("00000002000000"))),
                (">", message(0, b"\x03select 1")), ("<", message(1, b"\x01") + message(2, column)), (">", message(0, b"\x01")))


def smb():
    def head(command, flags, number):
        front = struct.pack("<HHIHHIIQIIQ", 64, 1, 0, command, 1, flags, 0, number, 0xFEFF, 0, 0)
        return b"\xfeSMB" + front + bytes(16)

    def session(data):
        return u32(len(data)) + data

    negotiate = head(0, 0, 0) + struct.pack("<HHHHI", 36, 2, 1, 0, 0) + bytes(24) + x("02021002")
    negotiated = head(0, 1, 0) + struct.pack("<HHH", 65, 1, 0x0210) + bytes(60)
    yield from flow(50018, 445, (">", session(negotiate)), ("<", session(negotiated)), (">", session(head(13, 0, 1) + x("04000000"))))
    old = b"\xffSMB\x72" + x("00000000" "18" "0128") + bytes(12) + x("ffff" "fffe" "0000" "0100") + b"\0" + x("0c00") + b"\2NT LM 0.12\0"
    yield from flow(50019, 139, (">", session(old)))


def rpc():
    none = u32(0, 0)
    call = u32(0x1234, 0, 2, 100000, 2, 3) + none + none
    yield asks(50020, 111, call + u32(100003, 3, 6, 0))
    yield answers(111, 50020, u32(0x1234, 1, 0) + none + u32(0, 2049))
    unix = u32(7, 5) + b"host1\0\0\0" + u32(1000, 1000, 1, 10)
    lookup = u32(0x1235, 0, 2, 100003, 3, 1) + u32(1, len(unix)) + unix + none + u32(32) + bytes(range(32))
    reply = u32(0x1235, 1, 0) + none + u32(0, 0) + bytes(84)
    last = 0x80000000
    yield from flow(50021, 2049, (">", u32(last | len(lookup)) + lookup), ("<", u32(last | len(reply)) + reply))


def ldap():
    search = tagged(0x63, tagged(4, b"dc=example") + x("0a0102" "0a0100" "020100" "020100" "010100") + tagged(0x87, b"objectClass") + x("3000"))
    attribute = tagged(0x30, tagged(4, b"description") + tagged(0x31, tagged(4, b"x" * 200)))
    entry = tagged(0x64, tagged(4, b"cn=fred,dc=example") + tagged(0x30, attribute))
    done = tagged(0x65, x("0a0100" "0400" "0400"))

    def message(number, operation):
        return tagged(0x30, x("0201") + bytes([number]) + operation)

    bind, bound = x("6007" "020103" "0400" "8000"), x("6107" "0a0100" "0400" "0400")
    return flow(50022, 389, (">", message(1, bind)), ("<", message(1, bound)), (">", message(2, search)),
                ("<", message(2, entry) + message(2, done)), (">", message(3, x("4200"))))


def kerberos():
    realm = tagged(0x1B, b"EXAMPLE.COM")
    body = tagged(0xA4, tagged(0x30, tagged(0xA0, x("03050050800010")) + tagged(0xA2, realm)))
    request = tagged(0x6A, tagged(0x30, x("a103020105" "a20302010a") + tagged(0xA3, x("3000")) + body))
    when = tagged(0xA4, tagged(0x18, b"20260101000000Z"))
    error = tagged(0x7E, tagged(0x30, x("a003020105" "a10302011e") + when + x("a505020301e240" "a603020119") + tagged(0xA9, realm)))
    return [asks(50023, 88, request), answers(88, 50023, error), *flow(50024, 88, (">", u32(len(request)) + request))]


def snmp():
    def variable(name, tag, value):
        return tagged(0x30, tagged(6, name) + tagged(tag, value))

    describes, uptime = x("2b06010201010100"), x("2b06010201010300")

    def message(version, kind, data):
        return tagged(0x30, x("0201") + bytes([version]) + tagged(4, b"public") + tagged(kind, data))

    head = x("0204" "12345678" "020100" "020100")
    get = message(1, 0xA0, head + tagged(0x30, variable(describes, 5, b"") + variable(uptime, 5, b"")))
    told = message(1, 0xA2, head + tagged(0x30, variable(describes, 4, b"Linux host " * 14) + variable(uptime, 0x43, x("00ffee"))))
    trap = tagged(6, x("2b0601040182371503")) + tagged(0x40, CLIENT) + x("020106" "020104") + tagged(0x43, x("0102"))
    trap = message(0, 0xA4, trap + tagged(0x30, variable(describes, 2, x("05"))))
    security = tagged(4, tagged(0x30, x("0400" "020100" "020100" "0400" "0400" "0400")))
    scoped = tagged(0x30, x("0400" "0400") + tagged(0xA0, x("020101" "020100" "020100" "3000")))
    third = tagged(0x30, x("020103") + tagged(0x30, x("02020815" "020300ffe3" "040104" "020103")) + security + scoped)
    return [asks(50025, 161, get), answers(161, 50025, told), asks(50026, 162, trap), asks(50027, 161, third)]


def http2():
    def piece(kind, flags, stream, data):
        return u32(len(data))[1:] + bytes([kind, flags]) + u32(stream) + data

    preface = b"PRI * HTTP/2.0\r\n\r\nSM\r\n\r\n"
    settings = piece(4, 0, 0, u16(3) + u32(100) + u16(4) + u32(65535))
    request = piece(1, 5, 1, x("828684410f") + b"www.example.com")
    last = piece(6, 0, 0, bytes(8)) + piece(2, 0, 3, u32(0x80000001) + b"\x0f") + piece(3, 0, 3, u32(8)) + piece(7, 0, 0, u32(1, 0) + b"bye")
    return flow(50028, 80, (">", preface + settings), ("<", piece(4, 1, 0, b"") + piece(8, 0, 0, u32(1000))), (">", request),
                ("<", piece(1, 4, 1, x("88")) + piece(0, 1, 1, b"hello")), (">", last))


def websocket():
    ask = b"GET /chat HTTP/1.1\r\nHost: server.example\r\nUpgrade: websocket\r\nConnection: Upgrade\r\n"
    ask += b"Sec-WebSocket-Key: dGhlIHNhbXBsZSBub25jZQ==\r\nSec-WebSocket-Version: 13\r\n\r\n"
    answer = b"HTTP/1.1 101 Switching Protocols\r\nUpgrade: websocket\r\nConnection: Upgrade\r\n"
    answer += b"Sec-WebSocket-Accept: s3pPLMBiTxaQ9kYGzzhZRbK+xOo=\r\n\r\n"
    masked, plain = x("8185" "37fa213d" "7f9f4d5158"), x("8105") + b"Hello"
    return flow(50029, 80, (">", ask), ("<", answer), (">", masked), ("<", plain), ("<", x("827e0100") + bytes(256)), ("<", x("880203e8")))


def rtcp():
    invite = b"INVITE sip:b@192.0.2.53 SIP/2.0\r\nCall-ID: 1\r\nContent-Type: application/sdp\r\n\r\n"
    invite += b"v=0\r\no=- 1 1 IN IP4 192.0.2.1\r\ns=-\r\nc=IN IP4 192.0.2.1\r\nt=0 0\r\nm=audio 6000 RTP/AVP 0\r\n"
    sender = x("81c8000c") + u32(0x11223344, 3900000000, 0x80000000, 160000, 50, 8000)
    sender += u32(0x55667788) + x("00000000") + u32(1000, 5, 0x12345678, 65536)
    name = b"fred@192.0.2.1"
    names = u32(0x11223344) + bytes([1, len(name)]) + name
    names += b"\0" * (4 - len(names) % 4)
    names = x("81ca") + u16(len(names) // 4) + names
    media = x("80000001") + u32(160, 0x55667788) + bytes(20)
    return [asks(5060, 5060, invite), answers(7000, 6000, media), answers(7001, 6001, sender + names + x("81cb0001") + u32(0x11223344))]


def services():
    named = [dhcp6, netbios, dns_records, lines, mqtt, coap, modbus, postgresql, mysql, smb, rpc, ldap, kerberos, snmp]
    for made in [*named, http2, websocket, rtcp]:
        yield "hosts_" + made.__name__, capture(*made())
