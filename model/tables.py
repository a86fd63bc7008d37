"""The tables of categories 017, 018 and 061, set down a second time.

Category 017 is "Mode S Surveillance Coordination Function Messages", edition 1.3 (document 000);
category 018 is "Mode S Datalink Function Messages", edition 1.6 (document 002); category 061 is
"SDPS Session and Service Control Messages", edition 1.2 (document 004). Section numbers
are those documents' own. Copied by hand from the documents, from documents 01 and 02 and from
docs/DECISIONS.md (whose rows R1 to R11 and C1 to C15 are cited here), and from nothing else: crates/rules
was not read for it. So a slip in either transcription shows as a difference in compare.py.

In order: what a row is; the items of each category (5.2); the profiles (5.3.1, of 061 5.3); the message
types (5.2.1 and 5.3.2, of 061 5.2.1); the cells that depend on more than the message type; what must hold
of it all.

Field bits are numbered as the documents do, the highest first: "48/25" is bits 48 down to 25. The bits
of a list or an extended item are those of one part, the bits of a compound item those of one subfield.
"""

from collections import namedtuple

# ---- what a row is

UNSIGNED, SIGNED, SPARE, FX = "unsigned", "signed", "spare", "fx"

# One field: least and greatest are the values it may have, says is what they mean; called is its name
# where its item's title does not stand beside it.
Field = namedtuple("Field", "name bits width kind unit least greatest says called")

# One item. form is fixed, list, led, extended or compound; octets is the size of one part; least and
# greatest say how many parts there may be (fixed: one; list: what the count octet may say; led: content
# octets; extended: parts). parts holds the fields of each part that is printed.
# Of a compound item the parts are its primary octets, which have no fields; primaries holds for each of
# them what stands at its seven bits, a subfield or nothing. A subfield is a row of the same kind, fixed or
# a list, with its number there; in an item that is 0.
Item = namedtuple("Item", "reference section title form octets least greatest parts note primaries number", defaults=[[], 0])

# One row of a profile: no reference where the FRN is unusable.
Place = namedtuple("Place", "frn reference says")

# One message type: the items that it must send, and those that it may send, in profile order; also is
# the name over its column of 5.3.2, where that is another.
Message = namedtuple("Message", "number name compulsory optional also", defaults=[""])

# A cell that depends on more than the message type, as printed in the table, and the ground.
Cell = namedtuple("Cell", "number reference printed ground")

# A category: octets is the most that an FSPEC has; base is that in which its document prints the numbers
# of message types (061 prints a digit of family and one of nature, each a digit in base 16); sections are
# those of the profile and of the cells; time is the item that is a record's time, None where there is none,
# and untimed has the message types in which it is not (document 02, W-201).
Category = namedtuple("Category", "number document edition octets base sections items profile messages cells time untimed note")


def unsigned(name, bits, width, unit="", says="", least=0, greatest=None, called=None):
    top = 2 ** width - 1 if greatest is None else greatest
    return Field(name, bits, width, UNSIGNED, unit, least, top, says, called or name)


def signed(name, bits, width, unit, says, least, greatest, called=None):
    return Field(name, bits, width, SIGNED, unit, least, greatest, says, called or name)


def spare(bits, width):
    return Field("spare", bits, width, SPARE, "", 0, 0, "zero", "spare")


FX_BIT = Field("FX", "1", 1, FX, "", 0, 1, "1: another part follows", "FX")


def fixed(reference, section, title, octets, *fields, note=""):
    return Item(reference, section, title, "fixed", octets, 1, 1, [list(fields)], note)


def repeated(reference, section, title, octets, least, *fields, greatest=255, note=""):
    return Item(reference, section, title, "list", octets, least, greatest, [list(fields)], note)


def led(reference, section, title, least, greatest, note=""):
    content = unsigned("content", "8/1", 8, says="one octet of the packet", called="an octet of the contents")
    return Item(reference, section, title, "led", 1, least, greatest, [[content]], note)


def extended(reference, section, title, *parts, note=""):
    octets = sum(field.width for field in parts[0]) // 8
    return Item(reference, section, title, "extended", octets, 1, len(parts), [list(p) for p in parts], note)


def subfield(number, title, octets, *fields, note=""):
    return Item("", "", title, "fixed", octets, 1, 1, [list(fields)], note, number=number)


def subfield_list(number, title, octets, *fields, note=""):
    return Item("", "", title, "list", octets, 0, 255, [list(fields)], note, number=number)


def compound(reference, section, title, *primaries, note=""):
    """Each primary octet as a list of what stands at its bits, the highest first; a subfield is cited as its item is."""
    rows = [[place and place._replace(reference=reference, section=section) for place in row] for row in primaries]
    return Item(reference, section, title, "compound", 1, 1, len(rows), [], note, rows)


LOST = "The figure is lost; the width is that of the format line and the profile (R8)."
LOST_061 = "The figure is lost; the width is that of the format line and of Table 3 (C9)."
LOST_240 = "The figure is lost; one octet, as its neighbours have (C9)."
DAY = 24 * 3600 * 128 - 1  # 11,059,199: the last 1/128 s of a day

# ---- 5.2 of category 017

ITEMS_017 = [
    fixed("000", "5.2.1", "Message Type", 1,
          unsigned("type", "8/1", 8, says="a decimal number; those known are in MESSAGES.md", called="message type")),
    fixed("010", "5.2.2", "Data Source Identifier", 2,
          unsigned("SAC", "16/9", 8, says="system area code"),
          unsigned("SIC", "8/1", 8, says="system identity code")),
    fixed("012", "5.2.3", "Data Destination Identifier", 2,
          unsigned("SAC", "16/9", 8, says="system area code"),
          unsigned("SIC", "8/1", 8, says="system identity code")),
    fixed("045", "5.2.4", "Calculated Position in WGS-84 Coordinates", 6,
          signed("latitude", "48/25", 24, "180/2^23 degree", "−90 degrees up to, not with, 90", -4194304, 4194303),
          signed("longitude", "24/1", 24, "180/2^23 degree", "−180 degrees up to, not with, 180", -8388608, 8388607)),
    fixed("050", "5.2.5", "Flight Level in Binary Representation", 2,
          unsigned("V", "16", 1, says="1: code not validated"),
          unsigned("G", "15", 1, says="1: garbled code, or error correction applied"),
          signed("altitude", "14/1", 14, "25 ft", "a quarter of a flight level", -8192, 8191),
          note="The altitude is two's complement (R7)."),
    fixed("070", "5.2.6", "Mode 3/A Code in Octal Representation", 2,
          unsigned("V", "16", 1, says="1: code not validated"),
          unsigned("G", "15", 1, says="1: garbled code"),
          unsigned("L", "14", 1, says="1: smoothed, not from the last scan"),
          spare("13", 1),
          unsigned("code", "12/1", 12, says="four octal digits A, B, C, D, as one number (R9)", called="Mode 3/A code")),
    fixed("140", "5.2.7", "Time of Day", 3,
          unsigned("time", "24/1", 24, "1/128 s", "since midnight, UTC", greatest=DAY, called="time of day"),
          note=LOST),
    fixed("200", "5.2.8", "Track Velocity in Polar Co-ordinates", 4,
          unsigned("speed", "32/17", 16, "2^-14 NM/s", "ground speed"),
          unsigned("heading", "16/1", 16, "360/2^16 degree", "from geographical north at the aircraft"),
          note="The figure is lost; the two units place speed above heading (R8), and no range is left to enforce (R6)."),
    repeated("210", "5.2.9", "Mode S Address List", 3, 0,
             unsigned("address", "24/1", 24, says="Mode S address, A23 to A0", called="Mode S address"),
             note="The empty list is its encoding rule's own (R4). " + LOST),
    fixed("220", "5.2.10", "Aircraft Address", 3,
          unsigned("address", "24/1", 24, says="Mode S address, A23 to A0", called="aircraft address"),
          note=LOST),
    fixed("221", "5.2.11", "Duplicate Address Reference Number (DRN)", 2,
          unsigned("DRN", "16/1", 16, says="tells apart aircraft that share an address"),
          note=LOST),
    fixed("230", "5.2.12", "Transponder Capability", 1,
          unsigned("CA", "8/6", 3, says="communications capability; 1 to 3 are reserved"),
          unsigned("SI", "5", 1, says="0: transponder SI capable; 1: not SI capable"),
          spare("4/1", 4),
          note="The figure and a row of the list give bit 5 to SI, the list's last row still has it among the spare ones; the figure decides (R10)."),
    fixed("240", "5.2.13", "Track Status", 1,
          unsigned("CST", "8", 1, says="1: no measured position (coasted)"),
          unsigned("FLT", "7", 1, says="1: predicted flight level"),
          spare("6/1", 6),
          note="The octet 00 is legal (R5)."),
    repeated("350", "5.2.14", "Cluster Station/Node List", 2, 1,
             unsigned("SAC", "16/9", 8, says="system area code"),
             unsigned("SIC", "8/1", 8, says="system identification code")),
    fixed("360", "5.2.15", "Cluster Controller Command State", 1,
          unsigned("state", "8/1", 8, says="number of the state to be selected", called="cluster controller command state")),
]

# ---- 5.2 of category 018

ITEMS_018 = [
    fixed("000", "5.2.1", "Message Type", 1,
          unsigned("type", "8/1", 8, says="those known, in hexadecimal, are in MESSAGES.md", called="message type"),
          note=LOST),
    fixed("001", "5.2.2", "Result", 1,
          unsigned("CAUSE", "8/5", 4, says="0 accepted, 1 rejected, 2 cancelled, 3 finished, 4 delayed, 5 in progress, 6 invalid"),
          unsigned("DIAG", "4/1", 4, says="what led to CAUSE; 0 is none")),
    fixed("002", "5.2.3", "Time of Day", 3,
          unsigned("time", "24/1", 24, "1/128 s", "since midnight, UTC", greatest=DAY, called="time of day"),
          note=LOST),
    fixed("004", "5.2.4", "II Code", 1,
          unsigned("former", "8/5", 4, says="former II code"),
          unsigned("current", "4/1", 4, says="current II code")),
    fixed("005", "5.2.5", "Mode S Address", 3,
          unsigned("address", "24/1", 24, says="Mode S address, A23 to A0", called="Mode S address")),
    repeated("006", "5.2.6", "Mode S Address List", 3, 1,
             unsigned("address", "24/1", 24, says="Mode S address, A23 to A0", called="Mode S address")),
    fixed("007", "5.2.7", "Aircraft Data Link Command", 1,
          unsigned("UM", "8", 1, says="1: UC is taken into account"),
          unsigned("DM", "7", 1, says="1: DC is taken into account"),
          unsigned("UC", "6", 1, says="1: stop the uplink flow"),
          unsigned("DC", "5", 1, says="1: stop the downlink flow"),
          spare("4/1", 4)),
    extended("008", "5.2.8", "Aircraft Data Link Status",
             [unsigned("UDS", "8", 1, says="uplink default status, 1: disabled"),
              unsigned("DDS", "7", 1, says="downlink default status, 1: disabled"),
              unsigned("UCS", "6", 1, says="uplink current status, 1: disabled"),
              unsigned("DCS", "5", 1, says="downlink current status, 1: disabled"),
              spare("4/3", 2),
              unsigned("EI", "2", 1, says="1: outside the data link coverage map"),
              FX_BIT],
             [unsigned("IC", "8", 1, says="1: UCS and DCS can't be changed by command"),
              spare("7/2", 6),
              FX_BIT]),
    extended("009", "5.2.9", "Aircraft Data Link Report Request",
             [unsigned("SR", "8", 1, says="1: I018/008 in the next report"),
              unsigned("AR", "7", 1, says="1: I018/010 in the next report"),
              unsigned("ER", "6", 1, says="1: I018/011 in the next report"),
              unsigned("FR", "5", 1, says="1: I018/012 in the next report"),
              unsigned("MR", "4", 1, says="1: I018/013 in the next report"),
              unsigned("PR", "3", 1, says="1: I018/014 in the next report"),
              unsigned("CR", "2", 1, says="1: I018/015 in the next report"),
              FX_BIT],
             [unsigned("ID", "8", 1, says="1: I018/031 in the next report"),
              unsigned("MA", "7", 1, says="1: I018/032 in the next report"),
              unsigned("SP", "6", 1, says="1: I018/034 in the next report"),
              unsigned("HG", "5", 1, says="1: I018/033 in the next report"),
              unsigned("HD", "4", 1, says="1: I018/035 in the next report"),
              spare("3/2", 2),
              FX_BIT]),
    fixed("010", "5.2.10", "Transponder Communications Capability", 1,
          spare("8/4", 5),
          unsigned("COM", "3/1", 3, says="0 surveillance only, up to 4; 5 to 7 aren't assigned")),
    fixed("011", "5.2.11", "Capability Report", 7,
          unsigned("report", "56/1", 56, says="as the Mode S subnetwork SARPs have it, one number (R9)", called="capability report")),
    fixed("012", "5.2.12", "Aircraft Coverage Quality Factor", 1,
          unsigned("FS", "8", 1, says="1: on the ground"),
          unsigned("CQF", "7/1", 7, says="1 least to 126 greatest; 0 not supported, 127 undefined")),
    fixed("013", "5.2.13", "Aircraft CQF Calculation Method", 1,
          unsigned("method", "8/1", 8, says="number of the method", called="CQF calculation method"),
          note=LOST),
    fixed("014", "5.2.14", "Aircraft Position in Polar Co-ordinates", 4,
          unsigned("RHO", "32/17", 16, "1/256 NM", "range"),
          unsigned("THETA", "16/1", 16, "360/2^16 degree", "azimuth"),
          note="\"Max. range\" bars no number (R6)."),
    fixed("015", "5.2.15", "Aircraft Position in Cartesian Co-ordinates", 4,
          signed("X", "32/17", 16, "1/128 NM", "", -32768, 32767),
          signed("Y", "16/1", 16, "1/128 NM", "", -32768, 32767),
          note="\"Max. range\" bars no number (R6)."),
    fixed("016", "5.2.16", "Packet Number", 4,
          unsigned("number", "32/1", 32, says="of an uplink packet", called="packet number"),
          note=LOST),
    repeated("017", "5.2.17", "Packet Number List", 4, 1,
             unsigned("number", "32/1", 32, says="of an uplink packet", called="packet number"),
             note=LOST),
    fixed("018", "5.2.18", "Mode S Packet Properties", 1,
          spare("8", 1),
          unsigned("PR", "7/3", 5, says="priority, 0 lowest"),
          unsigned("PT", "2/1", 2, says="0 SVC, 1 MSP, 2 route")),
    led("019", "5.2.19", "Mode S Packet", 2, 254,
        note="Section 5.2.19 is missing; the profile prints \"3+\", so the length octet is 3 to 255 (R2)."),
    fixed("020", "5.2.20", "Broadcast Number", 4,
          unsigned("number", "32/1", 32, says="of an uplink broadcast", called="broadcast number"),
          note=LOST),
    fixed("021", "5.2.21", "Broadcast Properties", 6,
          unsigned("priority", "48/45", 4, says="0 lowest"),
          unsigned("power", "44/41", 4, says="0 lowest"),
          unsigned("duration", "40/33", 8, "s"),
          unsigned("coverage", "32/1", 32, says="bit i: send on sector i, as one number (R9)")),
    fixed("022", "5.2.22", "Broadcast Prefix", 4,
          spare("32/28", 5),
          unsigned("prefix", "27/1", 27, says="what follows UF in the broadcast")),
    fixed("023", "5.2.23", "Uplink or Downlink Broadcast", 7,
          unsigned("broadcast", "56/1", 56, says="MA or MB field, one number (R9)")),
    fixed("025", "5.2.24", "GICB Number", 4,
          unsigned("number", "32/1", 32, says="of a GICB request", called="GICB number")),
    fixed("027", "5.2.25", "BDS Code", 1,
          unsigned("BDS", "8/1", 8, says="register of the transponder", called="BDS code"),
          note=LOST),
    fixed("028", "5.2.26", "GICB Extraction Periodicity", 2,
          unsigned("seconds", "16/1", 16, "s", "0: the smallest there is", called="periodicity"),
          note=LOST),
    fixed("029", "5.2.27", "GICB Extracted", 7,
          unsigned("GICB", "56/1", 56, says="MB field, one number (R9)", called="GICB extracted")),
    fixed("030", "5.2.28", "GICB Properties", 2,
          unsigned("priority", "16/12", 5, says="0 lowest"),
          spare("11/9", 3),
          unsigned("PC", "8", 1, says="1: keep strictly to the periodicity"),
          unsigned("AU", "7", 1, says="1: send updates out of turn too"),
          unsigned("NE", "6", 1, says="1: no extraction is attempted"),
          unsigned("RD", "5/4", 2, says="reply goes to 0 data link, 1 surveillance, 2 both"),
          spare("3/1", 3)),
    fixed("031", "5.2.29", "Aircraft Identity", 6,
          unsigned("identity", "48/1", 48, says="eight characters of BDS 20, one number (R9)", called="aircraft identity"),
          note=LOST),
    fixed("032", "5.2.30", "Aircraft Mode A", 2,
          unsigned("V", "16", 1, says="1: code not validated"),
          unsigned("G", "15", 1, says="1: garbled code"),
          unsigned("L", "14", 1, says="1: not from the last scan"),
          spare("13", 1),
          unsigned("code", "12/1", 12, says="four octal digits A, B, C, D, as one number (R9)", called="Mode A code")),
    fixed("033", "5.2.31", "Aircraft Height", 2,
          unsigned("V", "16", 1, says="1: code not validated"),
          unsigned("G", "15", 1, says="1: garbled code"),
          signed("level", "14/1", 14, "25 ft", "a quarter of a flight level", -8192, 8191, called="flight level"),
          note="The level is two's complement (R7)."),
    fixed("034", "5.2.32", "Aircraft Speed", 2,
          unsigned("speed", "16/1", 16, "2^-14 NM/s", "at most 2 NM/s (R6)", greatest=32768)),
    fixed("035", "5.2.33", "Aircraft Heading", 2,
          unsigned("heading", "16/1", 16, "360/2^16 degree", "clockwise from geographical north")),
    fixed("036", "5.2.34", "Data Source Identifier", 2,
          unsigned("SAC", "16/9", 8, says="system area code"),
          unsigned("SIC", "8/1", 8, says="system identity code")),
    fixed("037", "5.2.35", "Data Destination Identifier", 2,
          unsigned("SAC", "16/9", 8, says="system area code"),
          unsigned("SIC", "8/1", 8, says="system identity code")),
]

# ---- 5.2 of category 061

CHARACTERS = "in ASCII; letters aren't enforced (C7)"


def selector(first):
    """Seven bits that each select an item of another category, from the one with that FRN on."""
    return [unsigned("N%d" % (first + n), str(8 - n), 1, says="1: FRN %d selected" % (first + n)) for n in range(7)] + [FX_BIT]


def characters(says):
    return [unsigned("character %d" % (n + 1), "%d/%d" % (32 - 8 * n, 25 - 8 * n), 8, says=says) for n in range(4)]


def threshold(number, name, title, octets, unit, says="", note=""):
    """A subfield that is one number, by the name that its presence bit has."""
    return subfield(number, title, octets, unsigned(name, "%d/1" % (8 * octets), 8 * octets, unit, says), note=note)


ITEMS_061 = [
    fixed("000", "5.2.1", "Message Type", 1,
          unsigned("FAM", "8/5", 4, says="message family: 1 connection, 2 service", called="family"),
          unsigned("NAT", "4/1", 4, says="nature within the family; those known are in MESSAGES.md", called="nature")),
    fixed("010", "5.2.2", "SDPS Identification", 2,
          unsigned("SAC", "16/9", 8, says="system area code"),
          unsigned("SIC", "8/1", 8, says="system identification code"),
          note=LOST_061),
    fixed("012", "5.2.3", "User Identification", 1,
          unsigned("user", "8/1", 8, says="number of the user", called="user identification"),
          note=LOST_061),
    fixed("015", "5.2.4", "Service Identification", 1,
          unsigned("service", "8/1", 8, says="number of the service", called="service identification"),
          note=LOST_061),
    fixed("020", "5.2.5", "Time of Message", 3,
          unsigned("time", "24/1", 24, "1/128 s", "since midnight, UTC", greatest=DAY, called="time of message"),
          note=LOST_061),
    fixed("030", "5.2.6", "Batch Number", 1,
          unsigned("batch", "8/1", 8, says="0 to N − 1, of N batches to a cycle", called="batch number"),
          note=LOST_061),
    fixed("045", "5.2.7", "Application Version Number", 1,
          unsigned("AVN", "8/1", 8, says="version of the SDPS application", called="application version number"),
          note=LOST_061),
    fixed("050", "5.2.8", "Default Geographical Volume", 1,
          unsigned("DGA", "8", 1, says="0: most recently defined volume; 1: volume covered by the SDPS"),
          spare("7/1", 7)),
    repeated("060", "5.2.9", "Geographical Area", 8, 3,
             signed("latitude", "64/33", 32, "180/2^25 degree", "−90 to 90 degrees, both ends legal (C7)", -2 ** 24, 2 ** 24),
             signed("longitude", "32/1", 32, "180/2^25 degree", "−180 to 180 degrees, both ends legal (C7)", -2 ** 25, 2 ** 25)),
    fixed("070", "5.2.10", "Lower Limit", 2,
          signed("limit", "16/1", 16, "1/4 FL", "−15 FL to 1500 FL", -60, 6000, called="lower limit"),
          note="The figure is lost; the width is that of the format line, and a least of −15 FL is two's complement (C7, C9)."),
    fixed("080", "5.2.11", "Upper Limit", 2,
          signed("limit", "16/1", 16, "1/4 FL", "−15 FL to 1500 FL", -60, 6000, called="upper limit"),
          note="The figure is lost; the width is that of the format line, and a least of −15 FL is two's complement (C7, C9)."),
    repeated("100", "5.2.12", "Connection Related Report", 1, 1,
             unsigned("CODE", "8/1", 8, says="system dependent")),
    compound("130", "5.2.13", "Track Selector",
             [subfield_list(1, "Track Number Selector", 2,
                            spare("16", 1),
                            unsigned("track", "15/1", 15, says="track number", called="track number")),
              subfield_list(2, "Aircraft Address Selector", 3,
                            unsigned("address", "24/1", 24, says="24 bits aircraft address", called="aircraft address")),
              subfield_list(3, "Aircraft Identification Selector", 6,
                            unsigned("character 1", "48/43", 6, says="callsign or registration marking; 6 bits each, as ICAO Annex 10 has them"),
                            unsigned("character 2", "42/37", 6),
                            unsigned("character 3", "36/31", 6),
                            unsigned("character 4", "30/25", 6),
                            unsigned("character 5", "24/19", 6),
                            unsigned("character 6", "18/13", 6),
                            unsigned("character 7", "12/7", 6),
                            unsigned("character 8", "6/1", 6)),
              subfield_list(4, "Code Family Selector", 2,
                            unsigned("W1", "16", 1, says="1: any digit A"),
                            unsigned("W2", "15", 1, says="1: any digit B"),
                            unsigned("W3", "14", 1, says="1: any digit C"),
                            unsigned("W4", "13", 1, says="1: any digit D"),
                            unsigned("code", "12/1", 12, says="four octal digits A, B, C, D, as one number (C15)", called="Mode 3/A code")),
              subfield_list(5, "Departure Airport Selector", 4, *characters("of the airport's name, " + CHARACTERS)),
              subfield_list(6, "Destination Airport Selector", 4, *characters("of the airport's name, " + CHARACTERS)),
              subfield_list(7, "Aircraft Type Selector", 4, *characters("of the aircraft's type, " + CHARACTERS))],
             [subfield_list(8, "Current Control Position Selector", 2,
                            unsigned("CENTRE", "16/9", 8, says="group identification code", called="centre"),
                            unsigned("POSITION", "8/1", 8, says="control position identification code", called="position")),
              subfield(9, "Track/Flight Categories Selector", 4,
                       unsigned("SIM", "32/31", 2, says="tracks from live surveillance reports, from simulated ones, or both"),
                       unsigned("CSR", "30", 1, says="1: combined reports"),
                       unsigned("PSR", "29", 1, says="1: primary reports"),
                       unsigned("SSR", "28", 1, says="1: secondary reports"),
                       unsigned("MDS", "27", 1, says="1: Mode S reports"),
                       unsigned("ADS", "26", 1, says="1: ADS reports"),
                       unsigned("VALT", "25/24", 2, says="0: default; else by what altitude reports a track has"),
                       unsigned("FPC", "23/22", 2, says="0: default; else by whether a flight plan is correlated"),
                       unsigned("CNF", "21", 1, says="whether tentative tracks are sent"),
                       unsigned("SPI", "20", 1, says="whether tracks are sent by their SPI"),
                       spare("19", 1),
                       unsigned("GAT/OAT", "18/17", 2, says="0: all; 1: general air traffic; 2: operational"),
                       unsigned("IFR", "16", 1, says="1: IFR selected"),
                       unsigned("VFR", "15", 1, says="1: VFR selected"),
                       unsigned("CFR", "14", 1, says="1: CVFR selected"),
                       unsigned("RVSM", "13/12", 2, says="0 all, 1 approved, 2 exempt, 3 not approved"),
                       unsigned("FRI/FOE", "11/10", 2, says="by Mode 4: 0 all, 1 friendly, 2 unknown, 3 not replying"),
                       unsigned("ME", "9", 1, says="1: tracks with the ME flag aren't sent"),
                       unsigned("MI", "8", 1, says="1: tracks with the MI flag aren't sent"),
                       spare("7/1", 7)),
              None, None, None, None, None],
             note="\"A primary subfield of two octets\" isn't taken for always two (C12)."),
    extended("210", "5.2.14", "Item Selector", selector(1), selector(8), selector(15), selector(22),
             note="FRNs are those of category 062."),
    fixed("220", "5.2.15", "Cyclical Update Characteristics", 5,
          unsigned("SD", "40/39", 2, says="scanning: 0 no directive, 1 by column, 2 by row"),
          unsigned("SCANNING PERIOD", "38/33", 6, "batch periods", "time for scanning the mosaic", called="scanning period"),
          unsigned("BATCH PERIOD", "32/29", 4, "100 ms", "between two consecutive batches", called="batch period"),
          unsigned("UPDATE PERIOD", "28/17", 12, "100 ms", "between the same batch of two scans", called="update period"),
          spare("16/15", 2),
          unsigned("DELAY", "14/9", 6, "100 ms", "extra delay", called="extra delay"),
          unsigned("MAXFLOW", "8/1", 8, "kbyte/s", "greatest data flow to the user; 255: none")),
    extended("230", "5.2.16", "Radar Synchronisation Characteristics",
             [unsigned("MSAC", "24/17", 8, says="main radar, source area code"),
              unsigned("MSIC", "16/9", 8, says="main radar, source identity code"),
              unsigned("NOP", "8", 1, says="1: an update is sent for a track without a plot too"),
              spare("7/2", 6),
              FX_BIT],
             [unsigned("BSAC", "24/17", 8, says="backup radar, source area code"),
              unsigned("BSIC", "16/9", 8, says="backup radar, source identity code"),
              spare("8/2", 7),
              FX_BIT],
             note="The bits printed 48 to 25 are those of the first part here."),
    compound("240", "5.2.17", "Triggering Criteria for Aperiodical Services",
             [subfield(1, "Discrete Parameters Flags", 1,
                       unsigned("TLF", "8", 1, says="1: on birth, death, no radar update"),
                       unsigned("TNB", "7", 1, says="1: on a change of the composed track number"),
                       spare("6", 1),
                       unsigned("PLN", "5", 1, says="1: on a change of flight plan information"),
                       unsigned("M3A", "4", 1, says="1: on a change of Mode 3/A identity"),
                       unsigned("COR", "3", 1, says="1: where correlation starts or ends"),
                       unsigned("SPE", "2", 1, says="1: on Mode 3/A 7500, 7600 and 7700"),
                       unsigned("MOF", "1", 1, says="1: on a change of mode of flight")),
              None,
              threshold(3, "RCT", "Rate of Climb/Descent Threshold", 1, "6.25 ft/min", note=LOST_240),
              threshold(4, "PT", "Position Threshold", 1, "1/64 NM", "of X and of Y", note="Printed \"TO BE DELETED?\"; it stands (C9)."),
              threshold(5, "RTT", "Rate of Turn Threshold", 1, "1/4 degree/s"),
              threshold(6, "TAT", "Track Angle Threshold", 1, "180/2^8 degree"),
              threshold(7, "GST", "Ground Speed Threshold", 1, "1 kt")],
             [threshold(8, "LAT", "Longitudinal Acceleration Threshold", 1, "", note=LOST_240 + " Its unit is lost with it."),
              threshold(9, "AT", "Altitude Threshold", 1, "1/4 FL", "geometric and barometric"),
              threshold(10, "FK", "Factor K", 1, "1/8", "times the standard deviation of each element"),
              threshold(11, "RP", "Refreshment Period", 1, "", note=LOST_240 + " Its unit is lost with it."),
              threshold(12, "MNP", "Minimal Period", 1, "1 s", "between updates of a track"),
              None, None],
             note="Subfield 2 is printed as spare, and isn't one (C9)."),
    repeated("330", "5.2.18", "Service Related Report", 2, 0,
             unsigned("CODE", "16/1", 16, says="system dependent"),
             note="The figure gives CODE all 16 bits, the list under it bits 16/12; the figure decides (C9)."),
    repeated("350", "5.2.19", "Sensor Selector", 2, 0,
             unsigned("SAC", "16/9", 8, says="source area code"),
             unsigned("SIC", "8/1", 8, says="source identity code"),
             greatest=30),
    extended("360", "5.2.20", "Sensor Item Selector", selector(1), selector(8), selector(15),
             note="FRNs are those of category 063."),
    fixed("370", "5.2.21", "Periodical Characteristics of Sensor Information Service", 2,
          unsigned("UPDATE PERIOD", "16/1", 16, "s", called="update period")),
    compound("380", "5.2.22", "Aperiodical Characteristics of Sensor Information Service",
             [subfield(1, "Refresh Period", 2,
                       unsigned("REFRESH PERIOD", "16/1", 16, "s", "where no change is detected", 4, 3600, called="refresh period")),
              subfield(2, "Discrete Parameters", 1,
                       unsigned("SSC", "8", 1, says="sensor status change"),
                       spare("7/1", 7)),
              threshold(3, "TSB", "Time Stamping Bias Change Threshold", 2, "ms"),
              threshold(4, "SRB", "SSR Range Bias Change Threshold", 2, "1/128 NM"),
              threshold(5, "SGB", "SSR Range Gain Change Threshold", 2, "10^-6"),
              threshold(6, "SAB", "SSR Azimuth Bias Change Threshold", 2, "360/2^16 degree"),
              threshold(7, "PRB", "PSR Range Bias Change Threshold", 2, "1/128 NM")],
             [threshold(8, "PGB", "PSR Range Gain Change Threshold", 2, "10^-6"),
              threshold(9, "PAB", "PSR Azimuth Bias Change Threshold", 2, "360/2^16 degree"),
              None, None, None, None, None]),
]

# ---- 5.3.1 of category 017, table 2

PROFILE_017 = [
    Place(1, "010", ""),
    Place(2, "012", ""),
    Place(3, "000", ""),
    Place(4, "350", ""),
    Place(5, "220", ""),
    Place(6, "221", ""),
    Place(7, "140", ""),
    Place(8, "045", ""),
    Place(9, "070", ""),
    Place(10, "050", ""),
    Place(11, "200", ""),
    Place(12, "230", ""),
    Place(13, "240", ""),
    Place(14, "210", ""),
    Place(15, "360", ""),
    Place(16, None, "spare"),
    Place(17, None, "spare"),
    Place(18, None, "spare"),
    Place(19, None, "spare"),
    Place(20, None, "spare"),
    Place(21, None, "reserved for Special Purpose Indicator"),
]

# ---- 5.3.1 of category 018, table 9

PROFILE_018 = [
    Place(1, "036", ""),
    Place(2, "037", ""),
    Place(3, "000", ""),
    Place(4, "001", ""),
    Place(5, "005", ""),
    Place(6, "016", ""),
    Place(7, "017", ""),
    Place(8, "018", ""),
    Place(9, "019", ""),
    Place(10, "028", ""),
    Place(11, "030", ""),
    Place(12, "025", ""),
    Place(13, "027", ""),
    Place(14, "029", ""),
    Place(15, "002", ""),
    Place(16, "006", ""),
    Place(17, "007", ""),
    Place(18, "008", ""),
    Place(19, "009", ""),
    Place(20, "010", ""),
    Place(21, "011", ""),
    Place(22, "014", ""),
    Place(23, "015", ""),
    Place(24, "020", ""),
    Place(25, "021", ""),
    Place(26, "022", ""),
    Place(27, "023", ""),
    Place(28, "004", ""),
    Place(29, "031", ""),
    Place(30, "032", ""),
    Place(31, "033", ""),
    Place(32, "034", ""),
    Place(33, "035", ""),
    Place(34, "012", ""),
    Place(35, "013", ""),
]

# ---- 5.3 of category 061, table 3: most FRNs are lost in it, the order is whole (C1)

PROFILE_061 = [
    Place(1, "010", ""),
    Place(2, "000", ""),
    Place(3, "012", ""),
    Place(4, "015", ""),
    Place(5, "020", ""),
    Place(6, "030", ""),
    Place(7, "045", ""),
    Place(8, "050", ""),
    Place(9, "060", ""),
    Place(10, "070", ""),
    Place(11, "080", ""),
    Place(12, "100", ""),
    Place(13, "130", ""),
    Place(14, "210", ""),
    Place(15, "220", ""),
    Place(16, "230", ""),
    Place(17, "240", ""),
    Place(18, "330", ""),
    Place(19, "350", ""),
    Place(20, "360", ""),
    Place(21, "370", ""),
    Place(22, "380", ""),
    Place(23, None, "no item is printed"),
    Place(24, None, "no item is printed"),
    Place(25, None, "no item is printed"),
    Place(26, None, "no item is printed"),
    Place(27, None, "Reserved Expansion Field"),
    Place(28, None, "Special Purpose Field"),
]

# ---- 5.2.1 (numbers, names) and 5.3.2, table 3 (cells), of category 017

MESSAGES_017 = [
    Message(0, "Network information", "010 012 000 350", ""),
    Message(10, "Track data", "010 012 000 220 140 045 070 050 200 230", "221 240"),
    Message(20, "Track data request", "010 012 000 220", ""),
    Message(21, "Track data stop", "010 012 000 220", ""),
    Message(22, "Cancel track data request", "010 012 000 220", "221", "Cancellation of Track Data"),
    Message(23, "Track data stop acknowledgement", "010 012 000 220", ""),
    Message(30, "New Node / Change-over, initial or intermediate message segment", "010 012 000 210", ""),
    Message(31, "New Node / Change-over, final or only message segment", "010 012 000 210", ""),
    Message(32, "New Node / Change-over, initial or intermediate message segment reply", "010 012 000 210", ""),
    Message(33, "New Node / Change-over, final or only message segment reply", "010 012 000 210", ""),
    Message(110, "Move node to new cluster state", "010 012 000 360", ""),
    Message(111, "Move node to new cluster state acknowledgement", "010 012 000 360", ""),
]

# ---- 5.2.1 (numbers, names) and 5.3.2 (cells) of category 018

MESSAGES_018 = [
    Message(0x00, "Associate_req", "036 037 000", "004"),
    Message(0x01, "Associate_resp", "036 037 000 001", "004"),
    Message(0x02, "Release_req", "036 037 000", ""),
    Message(0x03, "Release_resp", "036 037 000 001", ""),
    Message(0x04, "Abort_req", "036 037 000", "001"),
    Message(0x05, "Keep_alive", "036 037 000", ""),
    Message(0x10, "Aircraft_report", "036 037 000 005 008", "010 011 014 015 031 032 033 034 035 012 013"),
    Message(0x11, "Aircraft_command", "036 037 000 005 007 009", "013"),
    Message(0x12, "II_code_change", "036 037 000 004", ""),
    Message(0x20, "Uplink_packet", "036 037 000 005 016 018 019", ""),
    Message(0x21, "Cancel_uplink_packet", "036 037 000 005", "016"),
    Message(0x22, "Uplink_packet_ack", "036 037 000 001 005", "017"),
    Message(0x23, "Downlink_packet", "036 037 000 005 019", "001"),
    Message(0x26, "Data_XON", "036 037 000 006", ""),
    Message(0x27, "Data_XOFF", "036 037 000 006", ""),
    Message(0x30, "Uplink_broadcast", "036 037 000 020 022 023", "021"),
    Message(0x31, "Cancel_uplink_broadcast", "036 037 000", "020"),
    Message(0x32, "Uplink_broadcast_ack", "036 037 000 001", "020"),
    Message(0x34, "Downlink_broadcast", "036 037 000 005 002 023", ""),
    Message(0x40, "GICB_extraction", "036 037 000 005 025 027", "028 030 002"),
    Message(0x41, "Cancel_GICB_extraction", "036 037 000 005", "025"),
    Message(0x42, "GICB_extraction_ack", "036 037 000 001 005", "025"),
    Message(0x43, "GICB_response", "036 037 000 001 005 025 027 002", "029"),
]

# ---- 5.2.1 of category 061: the numbers, family and nature, with their names; table 2 (cells). I061/030 has no
# row there, and is optional in every type (document 02, W-205; C4); 090 and 110 have rows and are no items (C4)

REQUEST_061 = "030 050 060 070 080 130 210 220 230 240 350 360 370 380"

MESSAGES_061 = [
    Message(0x11, "Request for Connection", "010 000 012 020", "030"),
    Message(0x12, "Request for Disconnection", "010 000 012 020", "030 100"),
    Message(0x13, "Connection Acknowledgement", "010 000 012 020 045", "030"),
    Message(0x14, "Connection Rejection", "010 000 012 020", "030 100"),
    Message(0x15, "Disconnection Acknowledgement", "010 000 012 020", "030 100"),
    Message(0x16, "Disconnection Rejection", "010 000 012 020", "030 100"),
    Message(0x21, "Service Definition Request", "010 000 012 020", "015 " + REQUEST_061),
    Message(0x22, "Service Modification Request", "010 000 012 015 020", REQUEST_061),
    Message(0x23, "Service Suspension Request", "010 000 012 015 020", "030 330"),
    Message(0x24, "Service Resumption Request", "010 000 012 015 020", "030 330"),
    Message(0x25, "Service Termination Request", "010 000 012 015 020", "030 330"),
    Message(0x26, "Service Acknowledgement", "010 000 012 015 020", "030 330"),
    Message(0x27, "Service Rejection", "010 000 012 020", "015 030 330"),
    Message(0x28, "Service Report", "010 000 012 015 020", "030 330"),
    Message(0x2F, "End of Batch", "010 000 012 015 020 330", "030"),
]

# ---- cells that depend on more than the message type (each counts as optional)

CELLS_017 = [
    Cell(10, "221", "if needed", "5.2.11: only where the sender sees two or more aircraft with one address"),
    Cell(22, "221", "if needed", "5.2.11: only where the track data that it cancels carried a DRN"),
    Cell(10, "240", "*", "5.2.13: not sent where CST and FLT are both zero, so the cell depends on the track (R5)"),
]

CELLS_018 = [
    Cell(0x00, "004", "O", "5.2.4: sent by the DLF only, so it depends on the sender, though the section calls it compulsory"),
    Cell(0x01, "004", "O", "5.2.4: sent by the DLF only, so it depends on the sender, though the section calls it compulsory"),
    Cell(0x04, "001", "O", "5.2.2: sent where timer T3 has expired"),
    Cell(0x10, "010", "S", "5.2.10: on an aircraft's entry, or where AR asked for it"),
    Cell(0x10, "011", "S", "5.2.11: on an aircraft's entry, or where ER asked for it"),
    Cell(0x10, "012", "S", "5.2.12: where FR asked for it"),
    Cell(0x10, "013", "S", "5.2.13: where MR asked for it"),
    Cell(0x10, "014", "S", "5.2.14: where PR asked for it"),
    Cell(0x10, "015", "S", "5.2.15: where CR asked for it"),
    Cell(0x10, "031", "S", "5.2.29: where the last Aircraft_command for the aircraft asked for it (ID of I018/009)"),
    Cell(0x10, "032", "S", "5.2.30: where MA asked for it"),
    Cell(0x10, "033", "S", "5.2.9: where HG asked for it; 5.2.31: and a code is present that can be decoded"),
    Cell(0x10, "034", "S", "5.2.32: where SP asked for it"),
    Cell(0x10, "035", "S", "5.2.33: where HD asked for it"),
    Cell(0x11, "013", "O", "5.2.13: where a method is to be selected"),
    Cell(0x21, "016", "O", "5.2.16: where one request is cancelled, and not all of the aircraft's"),
    Cell(0x22, "017", "O", "5.2.17: not where no packet was named and none is pending"),
    Cell(0x23, "001", "O", "5.2.2: where the LV field is invalid"),
    Cell(0x30, "021", "O", "5.2.21: the sender's choice"),
    Cell(0x31, "020", "O", "5.2.20: where one broadcast is cancelled, and not all"),
    Cell(0x32, "020", "O", "5.2.20: not where there was no valid broadcast to cancel"),
    Cell(0x40, "002", "O", "5.2.3: where the request has an end time"),
    Cell(0x40, "028", "O", "5.2.26: not where a single extraction is wanted"),
    Cell(0x40, "030", "O", "5.2.28: not where its default properties will do"),
    Cell(0x41, "025", "O", "5.2.24: where one request is cancelled, and not all of the aircraft's"),
    Cell(0x42, "025", "O", "5.2.24: not where the cancellation that is answered named no number"),
    Cell(0x43, "029", "O", "5.2.27: not where the extraction failed"),
]

# Table 2 of 061 row by row, as it is printed: a column to a message type in the order above, M, O or blank (C5).
TABLE_2_061 = [
    ("000", "MMMMMM MMMMMMMMM"),
    ("010", "MMMMMM MMMMMMMMM"),
    ("012", "MMMMMM MMMMMMMMM"),
    ("015", "...... OMMMMMOMM"),
    ("020", "MMMMMM MMMMMMMMM"),
    ("045", "..M... ........."),
    ("050", "...... OO......."),
    ("060", "...... OO......."),
    ("070", "...... OO......."),
    ("080", "...... OO......."),
    ("100", ".O.OOO ........."),
    ("130", "...... OO......."),
    ("210", "...... OO......."),
    ("220", "...... OO......."),
    ("230", "...... OO......."),
    ("240", "...... OO......."),
    ("330", "...... ..OOOOOOM"),
    ("350", "...... OO......."),
    ("360", "...... OO......."),
    ("370", "...... OO......."),
    ("380", "...... OO......."),
]


def marked_061(reference, mark):
    """The message types in whose column the row of an item has a mark."""
    marks = dict(TABLE_2_061)[reference].replace(" ", "")
    return [row.number for row, there in zip(MESSAGES_061, marks, strict=True) if there == mark]


GROUNDS_061 = {
    (0x21, "015"): ("O¹", "5.2.4: only to name the service to be synchronised with"),
    (0x27, "015"): ("O¹", "5.2.4: only where another request than a definition is rejected"),
}

CELLS_061 = [Cell(number, reference, *GROUNDS_061.get((number, reference), ("O", "\"O = optional\"")))
             for reference, _ in TABLE_2_061 for number in marked_061(reference, "O")]
CELLS_061 += [Cell(row.number, "030", "no row", "document 02, W-205: its rules name no message type (C4)") for row in MESSAGES_061]

CATEGORIES = {
    17: Category(17, "000", "1.3", 3, 10, ("5.3.1", "5.3.2"), ITEMS_017, PROFILE_017, MESSAGES_017, CELLS_017, "140", [],
                 "Table 2 and the sentence below it give the FSPEC three octets."),
    18: Category(18, "002", "1.6", 5, 16, ("5.3.1", "5.3.2"), ITEMS_018, PROFILE_018, MESSAGES_018, CELLS_018, "002", [0x40],
                 "Table 9 gives the FSPEC five octets, the sentence below it six; the table is followed (R1)."),
    61: Category(61, "004", "1.2", 4, 16, ("5.3", "5.2.1, table 2"), ITEMS_061, PROFILE_061, MESSAGES_061, CELLS_061, "020", [],
                 "Table 3 has 28 places and so gives the FSPEC four octets (C1)."),
}


def editions():
    """The categories, each with its document and edition, as a phrase."""
    said = ["%03d (document %s, edition %s)" % (c.number, c.document, c.edition) for c in CATEGORIES.values()]
    return "categories " + " and ".join([", ".join(said[:-1])] * (len(said) > 1) + said[-1:])


# ---- what must hold of it all

def items(category):
    """The items of a category by reference."""
    return {item.reference: item for item in category.items}


def subfields(item):
    """The subfields of a compound item, in order; none of any other."""
    return [place for row in item.primaries for place in row if place]


def formats(item):
    """What of an item has fields: its subfields, or the item itself."""
    return subfields(item) if item.form == "compound" else [item]


def usable(category):
    """FRN to reference, for the FRNs that have one."""
    return {place.frn: place.reference for place in category.profile if place.reference}


def message(category, number):
    """The row of a message type, or None."""
    return next((row for row in category.messages if row.number == number), None)


def part_faults(name, octets, part):
    """What is wrong with the fields of one part."""
    above = 8 * octets
    for field in part:
        high, low = [int(n) for n in (field.bits + "/" + field.bits).split("/")[:2]]
        if high != above or field.width != high - low + 1:
            yield "%s: %s doesn't start at bit %d or is not %d wide" % (name, field.bits, above, field.width)
        above = low - 1
        half = 2 ** (field.width - 1)
        span = (-half, half - 1) if field.kind == SIGNED else (0, 2 * half - 1)
        if not span[0] <= field.least <= field.greatest <= span[1]:
            yield "%s: %s has values that its bits don't" % (name, field.name)
    if above != 0:
        yield "%s: bits %d/1 have no field" % (name, above)


def faults():
    """What is wrong with the tables by themselves, as a list of sentences."""
    said = []
    for category in CATEGORIES.values():
        known, places = items(category), usable(category)
        for item in category.items:
            name = "I%03d/%s" % (category.number, item.reference)
            numbers = [sub.number for sub in subfields(item)]
            if any(len(row) != 7 or not any(row) for row in item.primaries) or numbers != sorted(set(numbers)):
                said.append("%s: a primary octet without its seven places or without a subfield, or subfields out of order" % name)
            for some in formats(item):
                said += [fault for part in some.parts for fault in part_faults(name + " #%d" % some.number * bool(some.number), some.octets, part)]
        if [place.frn for place in category.profile] != list(range(1, 7 * category.octets + 1)):
            said.append("%d: the profile doesn't fill its FSPEC octets" % category.number)
        if sorted(places.values()) != sorted(known):
            said.append("%d: profile and items differ" % category.number)
        order = [reference for _, reference in sorted(places.items())]
        optional = set()
        for row in category.messages:
            both = row.compulsory.split() + row.optional.split()
            if len(set(both)) != len(both) or not set(both) <= set(order):
                said.append("%d: message %d names an item twice or none" % (category.number, row.number))
            for cells in (row.compulsory.split(), row.optional.split()):
                if cells != [reference for reference in order if reference in cells]:
                    said.append("%d: message %d is not in profile order" % (category.number, row.number))
            optional |= {(row.number, reference) for reference in row.optional.split()}
        if optional != {(cell.number, cell.reference) for cell in category.cells}:
            said.append("%d: optional items and listed cells differ" % category.number)
        clock = known.get(category.time)
        if category.time and (not clock or [(f.width, f.least, f.greatest) for part in clock.parts for f in part] != [(24, 0, DAY)]):
            said.append("%d: %s is no time of day" % (category.number, category.time))
        for number in category.untimed:
            row = message(category, number)
            if not row or category.time not in row.compulsory.split() + row.optional.split():
                said.append("%d: message %d has no time to leave aside" % (category.number, number))
    for reference, _ in TABLE_2_061:
        if marked_061(reference, "M") != [row.number for row in MESSAGES_061 if reference in row.compulsory.split()]:
            said.append("61: %s is compulsory in other types by row than by column" % reference)
    return said


if __name__ == "__main__":
    for sentence in faults():
        print(sentence)
