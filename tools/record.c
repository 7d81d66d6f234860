#include "record.h"

static const struct field cdr[] = {
    { 8, 4, "GDRoffset", AS_HEX },      { 12, 4, "Version", AS_NUMBER },     { 16, 4, "Release", AS_NUMBER },
    { 20, 4, "Encoding", AS_ENCODING }, { 24, 4, "Flags", AS_HEX },          { 28, 4, "rfuA", AS_NUMBER },
    { 32, 4, "rfuB", AS_NUMBER },       { 36, 4, "Increment", AS_NUMBER },   { 40, 4, "rfuD", AS_NUMBER },
    { 44, 4, "rfuE", AS_NUMBER },       { 48, 256, "Copyright", AS_STRING },
};

static const struct field gdr[] = {
    { 8, 4, "rVDRhead", AS_HEX },    { 12, 4, "zVDRhead", AS_HEX },    { 16, 4, "ADRhead", AS_HEX },
    { 20, 4, "eof", AS_HEX },        { 24, 4, "NrVars", AS_NUMBER },   { 28, 4, "NumAttr", AS_NUMBER },
    { 32, 4, "rMaxRec", AS_NUMBER }, { 36, 4, "rNumDims", AS_NUMBER }, { 40, 4, "NzVars", AS_NUMBER },
    { 44, 4, "UIRhead", AS_HEX },    { 48, 4, "rfuC", AS_NUMBER },     { 52, 4, "rfuD", AS_NUMBER },
    { 56, 4, "rfuE", AS_NUMBER },
};

static const struct field adr[] = {
    { 8, 4, "ADRnext", AS_HEX },       { 12, 4, "AgrEDRhead", AS_HEX },    { 16, 4, "Scope", AS_NUMBER },
    { 20, 4, "Num", AS_NUMBER },       { 24, 4, "NgrEntries", AS_NUMBER }, { 28, 4, "MAXgrEntry", AS_NUMBER },
    { 32, 4, "rfuA", AS_NUMBER },      { 36, 4, "AzEDRhead", AS_HEX },     { 40, 4, "NzEntries", AS_NUMBER },
    { 44, 4, "MAXzEntry", AS_NUMBER }, { 48, 4, "rfuE", AS_NUMBER },       { 52, 64, "Name", AS_STRING },
};

static const struct field aedr[] = {
    { 8, 4, "AEDRnext", AS_HEX },     { 12, 4, "Num", AS_NUMBER },      { 16, 4, "DataType", AS_TYPE },
    { 20, 4, "EntryNum", AS_NUMBER }, { 24, 4, "NumElems", AS_NUMBER }, { 28, 4, "rfuA", AS_NUMBER },
    { 32, 4, "rfuB", AS_NUMBER },     { 36, 4, "rfuC", AS_NUMBER },     { 40, 4, "rfuD", AS_NUMBER },
    { 44, 4, "rfuE", AS_NUMBER },
};

/* The last row is a zVDR's alone. */
static const struct field vdr[] = {
    { 8, 4, "VDRnext", AS_HEX },         { 12, 4, "DataType", AS_TYPE },         { 16, 4, "MaxRec", AS_NUMBER },
    { 20, 4, "VXRhead", AS_HEX },        { 24, 4, "VXRtail", AS_HEX },           { 28, 4, "Flags", AS_HEX },
    { 32, 4, "sRecords", AS_NUMBER },    { 36, 4, "rfuB", AS_NUMBER },           { 40, 4, "rfuC", AS_NUMBER },
    { 44, 4, "rfuF", AS_NUMBER },        { 48, 4, "NumElems", AS_NUMBER },       { 52, 4, "Num", AS_NUMBER },
    { 56, 4, "CPRorSPRoffset", AS_HEX }, { 60, 4, "BlockingFactor", AS_NUMBER }, { 64, 64, "Name", AS_STRING },
    { 128, 4, "zNumDims", AS_NUMBER },
};

static const struct field vxr[] = {
    { 8, 4, "VXRnext", AS_HEX },
    { 12, 4, "Nentries", AS_NUMBER },
    { 16, 4, "NusedEntries", AS_NUMBER },
};

static const struct field ccr[] = {
    { 8, 4, "CPRoffset", AS_HEX },
    { 12, 4, "uSize", AS_NUMBER },
    { 16, 4, "rfuA", AS_NUMBER },
};

static const struct field cpr[] = {
    { 8, 4, "cType", AS_NUMBER },
    { 12, 4, "rfuA", AS_NUMBER },
    { 16, 4, "pCount", AS_NUMBER },
};

static const struct field spr[] = {
    { 8, 4, "sArraysType", AS_NUMBER },
    { 12, 4, "rfuA", AS_NUMBER },
    { 16, 4, "pCount", AS_NUMBER },
};

static const struct field cvvr[] = {
    { 8, 4, "rfuA", AS_NUMBER },
    { 12, 4, "cSize", AS_NUMBER },
};

static const struct field uir[] = {
    { 8, 4, "NextUIR", AS_HEX },
    { 12, 4, "PrevUIR", AS_HEX },
};

#define ROWS(table) table, sizeof(table) / sizeof *(table)

/* Unused records that are on no list need no more than size and type. */
static const struct kind kinds[] = {
    { 1, "CDR", "CDF descriptor record", 304, ROWS(cdr), { { 0 } }, NULL },
    { 2, "GDR", "global descriptor record", 60, ROWS(gdr), { { "rDimSizes", 36 } }, NULL },
    { 3, "rVDR", "rVariable record", 128, vdr, sizeof vdr / sizeof *vdr - 1, { { "DimVarys", OF_THE_GDR } }, "PadValue" },
    { 4, "ADR", "attribute record", 116, ROWS(adr), { { 0 } }, NULL },
    { 5, "AgrEDR", "g/r entry record", 48, ROWS(aedr), { { 0 } }, "Value" },
    { TYPE_OF_VXR, "VXR", "index record", 20, ROWS(vxr), { { 0 } }, NULL },
    { 7, "VVR", "values record", 8, NULL, 0, { { 0 } }, "Records" },
    { 8, "zVDR", "zVariable record", 132, ROWS(vdr), { { "zDimSizes", 128 }, { "DimVarys", 128 } }, "PadValue" },
    { 9, "AzEDR", "z entry record", 48, ROWS(aedr), { { 0 } }, "Value" },
    { 10, "CCR", "compressed file record", 20, ROWS(ccr), { { 0 } }, "data" },
    { 11, "CPR", "compression parameters record", 20, ROWS(cpr), { { "cParms", 16 } }, NULL },
    { 12, "SPR", "sparseness parameters record", 20, ROWS(spr), { { "sArraysParms", 16 } }, NULL },
    { 13, "CVVR", "compressed values record", 16, ROWS(cvvr), { { 0 } }, "data" },
    { -1, "UIR", "unused record", 8, ROWS(uir), { { 0 } }, "Remainder" },
};

int32_t record_field(const uint8_t *bytes)
{
    uint32_t bits = (uint32_t)bytes[0] << 24 | (uint32_t)bytes[1] << 16 | (uint32_t)bytes[2] << 8 | bytes[3];

    return (int32_t)bits;
}

const struct kind *record_kind(int32_t type)
{
    for (size_t i = 0; i < sizeof kinds / sizeof *kinds; i++)
        if (kinds[i].type == type)
            return &kinds[i];
    return NULL;
}

const char *record_words(const uint8_t *file, size_t end, uint64_t offset)
{
    const struct kind *kind = NULL;

    if (offset > end || end - offset < RECORD_HEAD)
        return "fewer than 8 bytes";
    kind = record_kind(record_field(file + offset + 4));
    return kind == NULL ? "bytes of no record type" : kind->words;
}
