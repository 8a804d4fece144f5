// The same work with serd: a document in memory to rows of five words, IRIs expanded, terms numbered in a hash table.
#include <serd/serd.h>
#include <stdlib.h>
#include <string.h>

#include "serd_read.h"

struct slot {
    uint32_t hash, number;
};

// Open addressing, at most half full; like our tables, it is lent at its final size.
struct tables {
    SerdEnv *env;
    struct slot *slots;
    size_t mask;
    uint32_t row_count, term_count, blank_count, used, string;
};

static uint32_t hash_of(const uint8_t *s, size_t n, uint64_t h)
{
    uint64_t w;
    for (; n >= 8; s += 8, n -= 8) {
        memcpy(&w, s, 8);
        h = (h ^ w) * 0x9E3779B97F4A7C15u;
        h ^= h >> 32;
    }
    w = 0;
    memcpy(&w, s, n);
    h = (h ^ w ^ (n << 56)) * 0x9E3779B97F4A7C15u;
    return h >> 32;
}

static int same(const uint32_t *t, uint32_t kind, uint32_t start, uint32_t size, uint32_t datatype, uint32_t tag_size)
{
    return t[0] == kind && t[2] == size && (kind != SYCAMOOT_LITERAL || t[3] == datatype) &&
           (kind != SYCAMOOT_TAGGED || (t[4] == tag_size && !memcmp(store + t[3], store + start + size, tag_size))) &&
           !memcmp(store + t[1], store + start, size);
}

// The number of the term whose text, and tag behind it, were just copied behind the used part of the store, which keeps them if new.
static uint32_t number(struct tables *s, uint32_t kind, uint32_t size, uint32_t datatype, uint32_t tag_size)
{
    uint32_t start = s->used, hash = hash_of(store + start, size + tag_size, kind + 8ull * datatype);
    size_t i = hash & s->mask;
    for (; s->slots[i].number; i = (i + 1) & s->mask)
        if (s->slots[i].hash == hash && same(terms + 5 * (s->slots[i].number - 1), kind, start, size, datatype, tag_size))
            return s->slots[i].number;
    uint32_t *t = terms + 5 * s->term_count++;
    t[0] = kind, t[1] = start, t[2] = size, t[3] = t[4] = 0;
    if (kind == SYCAMOOT_BLANK) t[3] = s->blank_count++;
    if (kind == SYCAMOOT_LITERAL) t[3] = datatype;
    if (kind == SYCAMOOT_TAGGED) t[3] = start + size, t[4] = tag_size;
    s->used += size + tag_size;
    s->slots[i] = (struct slot){hash, s->term_count};
    return s->term_count;
}

static uint32_t put(struct tables *s, uint32_t at, const void *text, size_t size)
{
    memcpy(store + s->used + at, text, size);
    return at + size;
}

// As serd's own writer expands: a name by its two parts, a reference only where it has no scheme.
static uint32_t iri(struct tables *s, const SerdNode *node)
{
    SerdChunk front, back;
    uint32_t size;
    if (node->type == SERD_CURIE) {
        if (serd_env_expand(s->env, node, &front, &back)) abort();
        size = put(s, put(s, 0, front.buf, front.len), back.buf, back.len);
    } else if (serd_uri_string_has_scheme(node->buf)) {
        size = put(s, 0, node->buf, node->n_bytes);
    } else {
        SerdNode whole = serd_env_expand_node(s->env, node);
        size = put(s, 0, whole.buf, whole.n_bytes);
        serd_node_free(&whole);
    }
    return number(s, SYCAMOOT_IRI, size, 0, 0);
}

static uint32_t xsd_string(struct tables *s)
{
    static const char text[] = "http://www.w3.org/2001/XMLSchema#string";
    if (!s->string) s->string = number(s, SYCAMOOT_IRI, put(s, 0, text, sizeof text - 1), 0, 0);
    return s->string;
}

static uint32_t literal(struct tables *s, const SerdNode *node, const SerdNode *datatype, const SerdNode *tag)
{
    if (tag && tag->buf) {
        uint32_t size = put(s, 0, node->buf, node->n_bytes);
        put(s, size, tag->buf, tag->n_bytes);
        return number(s, SYCAMOOT_TAGGED, size, 0, tag->n_bytes);
    }
    uint32_t type = datatype && datatype->buf ? iri(s, datatype) : xsd_string(s);
    return number(s, SYCAMOOT_LITERAL, put(s, 0, node->buf, node->n_bytes), type, 0);
}

static uint32_t node_of(struct tables *s, const SerdNode *node)
{
    if (node->type != SERD_BLANK) return iri(s, node);
    return number(s, SYCAMOOT_BLANK, put(s, 0, node->buf, node->n_bytes), 0, 0);
}

static SerdStatus on_base(void *handle, const SerdNode *iri)
{
    return serd_env_set_base_uri(((struct tables *)handle)->env, iri);
}

static SerdStatus on_prefix(void *handle, const SerdNode *name, const SerdNode *iri)
{
    return serd_env_set_prefix(((struct tables *)handle)->env, name, iri);
}

static SerdStatus on_statement(void *handle, SerdStatementFlags flags, const SerdNode *graph, const SerdNode *subject,
                               const SerdNode *predicate, const SerdNode *object, const SerdNode *datatype, const SerdNode *tag)
{
    (void)flags;
    struct tables *s = handle;
    uint32_t *row = rows + 5 * s->row_count++;
    row[0] = graph && graph->buf ? node_of(s, graph) : 0;
    row[1] = node_of(s, subject);
    row[2] = iri(s, predicate);
    row[3] = object->type == SERD_LITERAL ? literal(s, object, datatype, tag) : node_of(s, object);
    row[4] = 0; // serd does not say where an object stands
    return SERD_SUCCESS;
}

struct counts serd_read(const struct lent *l)
{
    static struct slot slots[1 << 21];
    struct tables s = {.env = serd_env_new(NULL), .slots = slots, .mask = 1};
    while (s.mask + 1 < 2 * l->terms) s.mask = 2 * s.mask + 1;
    memset(slots, 0, (s.mask + 1) * sizeof *slots);
    SerdReader *reader = serd_reader_new(l->mode == SYCAMOOT_TURTLE ? SERD_TURTLE : SERD_TRIG, &s, NULL, on_base, on_prefix, on_statement, NULL);
    serd_reader_set_strict(reader, true);
    SerdStatus status = serd_reader_read_string(reader, l->document);
    serd_reader_free(reader);
    serd_env_free(s.env);
    return (struct counts){status == SERD_SUCCESS, s.row_count, s.term_count};
}
