/* qmtree.h: loads a tree file that `qmapc compile` wrote, and asks it what an engine asks: the leaf of a point, what may be seen
   from there, what a segment meets, where a player's box fits, which doors and lifts to draw, and the faces of the level.

   One file, for C99 and C++11, that needs the C library alone: put it beside your sources and include it. docs/TREEFILE.md
   describes the tree file, and docs/look.c shows most of these functions in use.

   qm_load checks the whole file, so whatever bytes you give it, no function below reads outside of them. Pass only leaves and numbers that
   these functions returned, unless stated otherwise; qm_row, qm_sees and qm_holds also take -1, the number of a solid leaf. The bytes
   stay yours: keep them as long as you use the tree, its hulls, its models and its faces. Asking changes nothing, so several threads
   may ask.

MIT License

Copyright (c) 2026 Zephuxo

Permission is hereby granted, free of charge, to any person obtaining a copy
of this software and associated documentation files (the "Software"), to deal
in the Software without restriction, including without limitation the rights
to use, copy, modify, merge, publish, distribute, sublicense, and/or sell
copies of the Software, and to permit persons to whom the Software is
furnished to do so, subject to the following conditions:

The above copyright notice and this permission notice shall be included in all
copies or substantial portions of the Software.

THE SOFTWARE IS PROVIDED "AS IS", WITHOUT WARRANTY OF ANY KIND, EXPRESS OR
IMPLIED, INCLUDING BUT NOT LIMITED TO THE WARRANTIES OF MERCHANTABILITY,
FITNESS FOR A PARTICULAR PURPOSE AND NONINFRINGEMENT. IN NO EVENT SHALL THE
AUTHORS OR COPYRIGHT HOLDERS BE LIABLE FOR ANY CLAIM, DAMAGES OR OTHER
LIABILITY, WHETHER IN AN ACTION OF CONTRACT, TORT OR OTHERWISE, ARISING FROM,
OUT OF OR IN CONNECTION WITH THE SOFTWARE OR THE USE OR OTHER DEALINGS IN THE
SOFTWARE.
*/

#ifndef QMTREE_H
#define QMTREE_H

#include <stdint.h>
#include <stdlib.h>
#include <string.h>

/* what a leaf holds */
enum { QM_EMPTY = -1, QM_SOLID = -2, QM_WATER = -3, QM_SLIME = -4, QM_LAVA = -5, QM_SKY = -6 };

/* the kinds of the sections that are known here: the clip hulls of players and of large monsters, brush models, and faces */
enum { QM_HULL_1 = 1, QM_HULL_2 = 2, QM_MODELS = 3, QM_FACES = 4 };

/* a tree. The numbers may be read; the rest is for the functions */
typedef struct {
    int version, has_rows;
    int32_t bound;                              /* each coordinate of the world lies between -bound and bound */
    int64_t planes, nodes, leaves, numbered;    /* numbered leaves are those that are not solid */
    uint32_t sections;
    const unsigned char *plane_bytes, *node_bytes, *leaf_bytes, *section_bytes;
    const unsigned char **rows;                 /* where each row begins, if there are rows */
    int64_t *numbers;                           /* the number of each leaf, or -1 */
} qm_tree;

/* a piece of a segment: its leaf, and where it ends, from 0 (the start of the segment) to 1 (its end) */
typedef struct {
    int64_t leaf;
    double to;
} qm_span;

/* the brushes of an entity such as a door: the entity's number in the map, the world being 0; the least box of whole numbers around
   them; how many numbered leaves they touch, which qm_touched gives; and their own tree */
typedef struct {
    uint64_t entity;
    int32_t low[3], high[3];
    int64_t touched;
    const unsigned char *touched_bytes;
    qm_tree tree;
} qm_model;

typedef struct {
    int64_t count;
    qm_model *list;                             /* their entities ascend */
} qm_models;

/* a piece of the surface between what is solid and a leaf that is not: this leaf; the brush to which the piece belongs, by its number
   among those of the world that are not clip, and the number of its face there; and how many corners the piece has, 3 or more. They
   go clockwise as seen from the leaf, and qm_corner gives them */
typedef struct {
    int64_t leaf;
    uint64_t brush;
    uint32_t face, corners;
    const unsigned char *corner_bytes;
} qm_face;

typedef struct {
    int64_t count;
    qm_face *list;
} qm_faces;

/* which numbered leaves touch each other and hold different contents, such as air above water. Rows do not know these */
typedef struct {
    int64_t *first;                             /* where the leaves that touch each numbered leaf begin in `others`, and then their end */
    int64_t *others;                            /* numbers of leaves, in no order; one may repeat */
} qm_contacts;

/* Loading. A function that returns a text returns NULL if all is well; else the text says why. */

/* loads a whole file. What is no tree file is refused by its first fault: "short", "magic", "counts", "header form", "plane form",
   "node order", "leaf form", "row form", "section form", "trailing" or "too long", and `place`, unless it is NULL, gets the offset of
   that fault. "no memory" has no place. After a fault there is nothing to free; a tree that is loaded is freed once */
static inline const char *qm_load(qm_tree *tree, const void *bytes, uint64_t size, uint64_t *place);
static inline void qm_free(qm_tree *tree);

/* the bytes of the section of a kind, or NULL; and how many there are */
static inline const unsigned char *qm_section(const qm_tree *tree, uint32_t kind, uint64_t *size);

/* loads clip hull 1 or 2, a tree of its own. "no part" if the file has none, "bad part" if its bytes are no such tree, or "no memory" */
static inline const char *qm_load_hull(const qm_tree *tree, uint32_t which, qm_tree *hull);

/* loads all brush models, with the same answers */
static inline const char *qm_load_models(const qm_tree *tree, qm_models *models);
static inline void qm_free_models(qm_models *models);

/* the same for bytes by themselves, in a world of this bound with this many numbered leaves. The first fault is "short", "form" or
   "trailing", at an offset in these bytes */
static inline const char *qm_read_models(const unsigned char *bytes, uint64_t size, int32_t bound, int64_t numbered,
                                         qm_models *models, uint64_t *place);

/* loads all faces, with the same answers; qm_read_faces reads bytes by themselves, as a section of this tree */
static inline const char *qm_load_faces(const qm_tree *tree, qm_faces *faces);
static inline void qm_free_faces(qm_faces *faces);
static inline const char *qm_read_faces(const unsigned char *bytes, uint64_t size, const qm_tree *tree, qm_faces *faces, uint64_t *place);

/* finds all contacts of leaves with different contents, once for a level, or says "no memory". Contacts narrower than a
   hundred-thousandth of a unit are left out */
static inline const char *qm_find_contacts(const qm_tree *tree, qm_contacts *contacts);
static inline void qm_free_contacts(qm_contacts *contacts);

/* Asking. A point on the plane of a node counts as in front. Coordinates are double, which is exact for whole ones, and for quarters
   and the like; next to a slanted plane other points can come out on its wrong side. */

/* the leaf of a point */
static inline int64_t qm_leaf_at(const qm_tree *tree, const double point[3]);

/* what a leaf holds, whether it is filled since it lies outside, and its number, -1 if it is solid. The leaf has to exist */
static inline int qm_contents(const qm_tree *tree, int64_t leaf);
static inline int qm_is_filled(const qm_tree *tree, int64_t leaf);
static inline int64_t qm_number_of(const qm_tree *tree, int64_t leaf);

/* what a point is in: in the level, in a clip hull, or, with &model->tree, in a model at its place in the map */
static inline int qm_contents_at(const qm_tree *tree, const double point[3]);

/* how many bytes a row has when it is decoded */
static inline size_t qm_row_size(const qm_tree *tree);

/* decodes the row of a numbered leaf; 0 if there is no such row, as for the number -1; `row` is then unchanged */
static inline int qm_row(const qm_tree *tree, int64_t number, unsigned char *row);

/* whether a decoded row holds a numbered leaf of its tree; 0 for the number -1 */
static inline int qm_holds(const unsigned char *row, int64_t number);

/* whether the row of one numbered leaf holds another; 0 if there is no such row or leaf */
static inline int qm_sees(const qm_tree *tree, int64_t number, int64_t other);

/* adds to `all`, which has the size of a row and is not `row` itself, the leaves of other contents that touch those of a decoded row:
   the surface of water as seen from the air */
static inline void qm_add_touching(const qm_tree *tree, const qm_contacts *contacts, const unsigned char *row, unsigned char *all);

/* the same, and all that the rows of these leaves hold: what may be seen through that surface */
static inline void qm_add_through(const qm_tree *tree, const qm_contacts *contacts, const unsigned char *row, unsigned char *all);

/* the span of a segment that begins at `at`, a fraction of the segment: start with 0, then pass the `to` of the last span, until it is 1 */
static inline qm_span qm_span_at(const qm_tree *tree, const double from[3], const double to[3], double at);

/* the part of a segment at which it comes into something solid, or 1 if it does not */
static inline double qm_struck(const qm_tree *tree, const double from[3], const double to[3]);

/* the model of an entity, or NULL */
static inline const qm_model *qm_model_of(const qm_models *models, uint64_t entity);

/* the number of the leaf at a place, from 0 on, in the list of those that a model touches: these numbers ascend */
static inline int64_t qm_touched(const qm_model *model, int64_t at);

/* whether a decoded row holds a leaf that a model touches: if not, the model need not be drawn, at its place in the map. 0
   for a model inside walls, which touches none */
static inline int qm_is_drawn(const qm_model *model, const unsigned char *row);

/* whether a decoded row holds a leaf that a box touches, such as that of a model that has moved. 1 too if the tree is too deep to tell,
   with more than 1,024 nodes one below another */
static inline int qm_box_is_drawn(const qm_tree *tree, const unsigned char *row, const double low[3], const double high[3]);

/* the number of one of the three planes that meet in a corner of a face: `which` is 0 for that of the face, 1 for that of the edge to
   the corner before, 2 for that of the edge to the next one. A number of 0 or more is a plane of the file; -1 to -6 are the walls of
   the cube */
static inline int64_t qm_corner_plane(const qm_face *face, uint32_t corner, int which);

/* the corner as a point: each coordinate is the nearest double, or the one next to it */
static inline void qm_corner(const qm_tree *tree, const qm_face *face, uint32_t corner, double point[3]);


/* The numbers of a file */

static inline uint32_t qm_u32(const unsigned char *at) {
    return (uint32_t)at[0] | (uint32_t)at[1] << 8 | (uint32_t)at[2] << 16 | (uint32_t)at[3] << 24;
}

static inline uint64_t qm_u64(const unsigned char *at) { return (uint64_t)qm_u32(at) | (uint64_t)qm_u32(at + 4) << 32; }

static inline int32_t qm_i32(const unsigned char *at) {
    uint32_t bits = qm_u32(at);
    int32_t value;
    memcpy(&value, &bits, sizeof value);
    return value;
}

static inline int64_t qm_i64(const unsigned char *at) {
    uint64_t bits = qm_u64(at);
    int64_t value;
    memcpy(&value, &bits, sizeof value);
    return value;
}

/* Loading */

#define QM_MOST_BYTES ((uint64_t)1 << 30)

/* bytes that are read from their beginning on, and the first fault */
typedef struct {
    const unsigned char *bytes;
    uint64_t size, at, place;
    const char *fault;
} qm_reader;

static inline int qm_fail(qm_reader *in, const char *fault, uint64_t place) {
    in->fault = fault;
    in->place = place;
    return 0;
}

/* the next bytes, or NULL: then they are short */
static inline const unsigned char *qm_take(qm_reader *in, uint64_t count) {
    if (count > in->size - in->at) return qm_fail(in, "short", in->size), (const unsigned char *)NULL;
    in->at += count;
    return in->bytes + in->at - count;
}

/* memory for some items of a size, 1 byte at least */
static inline void *qm_room(qm_reader *in, int64_t count, size_t each) {
    void *found = (uint64_t)count >= SIZE_MAX / 16 ? NULL : malloc((size_t)count * each + 1);
    if (!found) qm_fail(in, "no memory", 0);
    return found;
}

static inline int qm_read_counts(qm_reader *in, qm_tree *tree) {
    static const char magic[] = "QMTREE0";
    const unsigned char *at = qm_take(in, 8);
    uint64_t counts[4];
    int each;
    if (!at) return 0;
    for (each = 0; each < 8; each++)
        if (each < 7 ? at[each] != (unsigned char)magic[each] : at[7] != '1' && at[7] != '2') return qm_fail(in, "magic", (uint64_t)each);
    tree->version = at[7] - '0';
    for (each = 0; each < 4; each++) {
        if (!(at = qm_take(in, 8))) return 0;
        counts[each] = qm_u64(at);
        if ((each == 0 && counts[0] >> 32) || (each == 2 && (counts[1] == UINT64_MAX || counts[2] != counts[1] + 1)) ||
            (each == 3 && counts[3] > counts[2]))
            return qm_fail(in, "counts", in->at - 8);
    }
    if (!(at = qm_take(in, 1))) return 0;
    if (*at > 1) return qm_fail(in, "counts", 40);
    tree->has_rows = *at;
    tree->bound = 4096;
    if (tree->version == 2) {
        if (!(at = qm_take(in, 4))) return 0;
        if (qm_u32(at) != 4096 && qm_u32(at) != 32768) return qm_fail(in, "header form", 41);
        tree->bound = qm_i32(at);
        if (!(at = qm_take(in, 4))) return 0;
        tree->sections = qm_u32(at);
    }
    /* more than there are bytes is found to be short before it is used */
    tree->planes = (int64_t)counts[0];
    tree->nodes = (int64_t)(counts[1] < QM_MOST_BYTES ? counts[1] : QM_MOST_BYTES);
    tree->leaves = tree->nodes + 1;
    tree->numbered = (int64_t)(counts[3] < QM_MOST_BYTES + 1 ? counts[3] : QM_MOST_BYTES + 1);
    return 1;
}

static inline int64_t qm_common(int64_t one, int64_t other) {
    while (other) {
        int64_t rest = one % other;
        one = other;
        other = rest;
    }
    return one < 0 ? -one : one;
}

static inline int qm_is_plane(const unsigned char *at) {
    int64_t x = qm_i32(at), y = qm_i32(at + 4), z = qm_i32(at + 8), d = qm_i64(at + 12), most = (int64_t)1 << 26, far = (int64_t)1 << 44;
    if ((x ? x : y ? y : z) <= 0 || x > most || y < -most || y > most || z < -most || z > most || d < -far || d > far) return 0;
    return qm_common(qm_common(x, y), qm_common(z, d)) == 1;
}

static inline int qm_read_planes(qm_reader *in, qm_tree *tree) {
    int64_t plane;
    tree->plane_bytes = in->bytes + in->at;
    for (plane = 0; plane < tree->planes; plane++) {
        const unsigned char *at = qm_take(in, 20);
        if (!at) return 0;
        if (!qm_is_plane(at)) return qm_fail(in, "plane form", in->at - 20);
    }
    return 1;
}

/* whether a walk, each node before its front and that before its back, meets all nodes and leaves by their numbers */
static inline int qm_is_in_order(const qm_tree *tree, int64_t *waiting) {
    int64_t count = 1, node = 0, leaf = 0;
    waiting[0] = tree->nodes ? 0 : -1;
    while (count) {
        int64_t child = waiting[--count];
        if (child < 0) {
            if (leaf >= tree->leaves || child != -1 - leaf++) return 0;
        } else {
            const unsigned char *at = tree->node_bytes + 20 * node;
            if (node >= tree->nodes || child != node++ || qm_u32(at) >= (uint64_t)tree->planes) return 0;
            waiting[count++] = qm_i64(at + 12);
            waiting[count++] = qm_i64(at + 4);
        }
    }
    return node == tree->nodes && leaf == tree->leaves;
}

static inline int qm_read_nodes(qm_reader *in, qm_tree *tree) {
    uint64_t first = in->at;
    int64_t *waiting;
    int good;
    tree->node_bytes = in->bytes + in->at;
    if (!qm_take(in, 20 * (uint64_t)tree->nodes)) return 0;
    /* a node takes one away and leaves two */
    if (!(waiting = (int64_t *)qm_room(in, tree->nodes + 2, sizeof *waiting))) return 0;
    good = qm_is_in_order(tree, waiting);
    free(waiting);
    return good || qm_fail(in, "node order", first);
}

static inline int qm_read_leaves(qm_reader *in, qm_tree *tree) {
    uint64_t left = in->size - in->at;
    int64_t leaf, numbered = 0, there = left / 5 < (uint64_t)tree->leaves ? (int64_t)(left / 5) : tree->leaves;
    tree->leaf_bytes = in->bytes + in->at;
    if (!(tree->numbers = (int64_t *)qm_room(in, there, sizeof *tree->numbers))) return 0;
    for (leaf = 0; leaf < tree->leaves; leaf++) {
        const unsigned char *at = qm_take(in, 5);
        if (!at) return 0;
        if (qm_i32(at) < QM_SKY || qm_i32(at) > QM_EMPTY || at[4] > 1 || (at[4] && qm_i32(at) != QM_SOLID))
            return qm_fail(in, "leaf form", in->at - 5);
        tree->numbers[leaf] = qm_i32(at) == QM_SOLID ? -1 : numbered++;
    }
    return numbered == tree->numbered || qm_fail(in, "counts", 32);
}

/* a row: runs as long as can be, no bit past the last leaf, and that of the row's own leaf */
static inline int qm_read_row(qm_reader *in, int64_t numbered, int64_t own) {
    uint64_t begin = in->at;
    int64_t size = (numbered + 7) / 8, done = 0, zeros;
    int could_be_longer = 0;
    unsigned last = 0, mine = 0;
    while (done < size) {
        const unsigned char *at = qm_take(in, 1);
        if (!at) return 0;
        if (*at) {
            if (done == own >> 3) mine = *at;
            if (done == size - 1) last = *at;
            could_be_longer = 0;
            done++;
            continue;
        }
        if (could_be_longer) return qm_fail(in, "row form", begin);
        if (!(at = qm_take(in, 1))) return 0;
        zeros = *at;
        if (!zeros || zeros > size - done) return qm_fail(in, "row form", begin);
        could_be_longer = zeros < 255;
        done += zeros;
    }
    if (numbered % 8 && last >> numbered % 8) return qm_fail(in, "row form", begin);
    return (mine >> (own & 7) & 1) || qm_fail(in, "row form", begin);
}

static inline int qm_read_rows(qm_reader *in, qm_tree *tree) {
    int64_t own;
    if (!tree->has_rows) return 1;
    if (!(tree->rows = (const unsigned char **)qm_room(in, tree->numbered, sizeof *tree->rows))) return 0;
    for (own = 0; own < tree->numbered; own++) {
        tree->rows[own] = in->bytes + in->at;
        if (!qm_read_row(in, tree->numbered, own)) return 0;
    }
    return 1;
}

static inline int qm_read_sections(qm_reader *in, qm_tree *tree) {
    uint32_t section, before = 0;
    tree->section_bytes = in->bytes + in->at;
    for (section = 0; section < tree->sections; section++) {
        const unsigned char *at = qm_take(in, 12);
        if (!at) return 0;
        if (qm_u32(at) <= before) return qm_fail(in, "section form", in->at - 12);
        before = qm_u32(at);
        if (!qm_take(in, qm_u64(at + 4))) return 0;
    }
    return 1;
}

static inline const char *qm_load(qm_tree *tree, const void *bytes, uint64_t size, uint64_t *place) {
    qm_reader in;
    memset(tree, 0, sizeof *tree);
    memset(&in, 0, sizeof in);
    in.bytes = (const unsigned char *)bytes;
    in.size = size;
    if (size > QM_MOST_BYTES) qm_fail(&in, "too long", QM_MOST_BYTES);
    else if (qm_read_counts(&in, tree) && qm_read_planes(&in, tree) && qm_read_nodes(&in, tree) && qm_read_leaves(&in, tree) &&
             qm_read_rows(&in, tree) && qm_read_sections(&in, tree) && in.at < size)
        qm_fail(&in, "trailing", in.at);
    if (!in.fault) return NULL;
    if (place) *place = in.place;
    qm_free(tree);
    return in.fault;
}

static inline void qm_free(qm_tree *tree) {
    free((void *)tree->rows);
    free(tree->numbers);
    memset(tree, 0, sizeof *tree);
}

static inline const unsigned char *qm_section(const qm_tree *tree, uint32_t kind, uint64_t *size) {
    const unsigned char *at = tree->section_bytes;
    uint32_t section;
    for (section = 0; section < tree->sections; section++) {
        *size = qm_u64(at + 4);
        if (qm_u32(at) == kind) return at + 12;
        at += 12 + *size;
    }
    *size = 0;
    return NULL;
}

/* a tree that stands in a section: of version 2, in a world of the same bound, without rows and without sections */
static inline const char *qm_load_plain(qm_tree *tree, const unsigned char *bytes, uint64_t size, int32_t bound) {
    const char *fault = qm_load(tree, bytes, size, NULL);
    if (fault) return strcmp(fault, "no memory") ? "bad part" : fault;
    if (tree->version == 2 && tree->bound == bound && !tree->has_rows && !tree->sections) return NULL;
    qm_free(tree);
    return "bad part";
}

static inline const char *qm_load_hull(const qm_tree *tree, uint32_t which, qm_tree *hull) {
    uint64_t size;
    const unsigned char *bytes = which == QM_HULL_1 || which == QM_HULL_2 ? qm_section(tree, which, &size) : NULL;
    memset(hull, 0, sizeof *hull);
    return bytes ? qm_load_plain(hull, bytes, size, tree->bound) : "no part";
}

/* the next model, whose entity is above the one before; its form is checked once all its bytes are there */
static inline int qm_read_model(qm_reader *in, int32_t bound, int64_t numbered, uint64_t before, qm_model *model) {
    uint64_t begin = in->at, count, size, least = 0;
    const unsigned char *at = qm_take(in, 40), *bytes;
    const char *fault;
    int axis, good;
    if (!at) return 0;
    model->entity = qm_u64(at);
    good = model->entity > before;
    for (axis = 0; axis < 3; axis++) {
        model->low[axis] = qm_i32(at + 8 + 4 * axis);
        model->high[axis] = qm_i32(at + 20 + 4 * axis);
        good = good && model->low[axis] <= model->high[axis];
    }
    count = qm_u64(at + 32);
    if (count > in->size / 8) return qm_fail(in, "short", in->size);
    if (!(model->touched_bytes = qm_take(in, 8 * count))) return 0;
    model->touched = (int64_t)count;
    for (bytes = model->touched_bytes; bytes < in->bytes + in->at; bytes += 8) {
        good = good && qm_u64(bytes) >= least && qm_u64(bytes) < (uint64_t)numbered;
        least = qm_u64(bytes) + 1;
    }
    if (!(at = qm_take(in, 8))) return 0;
    size = qm_u64(at);
    if (!(bytes = qm_take(in, size))) return 0;
    if (!good) return qm_fail(in, "form", begin);
    fault = qm_load_plain(&model->tree, bytes, size, bound);
    return !fault || qm_fail(in, strcmp(fault, "no memory") ? "form" : fault, begin);
}

static inline const char *qm_read_models(const unsigned char *bytes, uint64_t size, int32_t bound, int64_t numbered,
                                         qm_models *models, uint64_t *place) {
    qm_reader in;
    const unsigned char *at;
    int64_t due, room = 0;
    uint64_t before = 0;
    memset(&in, 0, sizeof in);
    memset(models, 0, sizeof *models);
    in.bytes = bytes;
    in.size = size;
    at = qm_take(&in, 4);
    for (due = at ? (int64_t)qm_u32(at) : 0; due > 0 && !in.fault; due--) {
        if (models->count == room) {
            int64_t more = room ? 2 * room : 16;
            void *list = (uint64_t)more > SIZE_MAX / sizeof(qm_model) ? NULL : realloc(models->list, (size_t)more * sizeof(qm_model));
            if (!list) {
                qm_fail(&in, "no memory", 0);
                break;
            }
            models->list = (qm_model *)list;
            room = more;
        }
        memset(&models->list[models->count], 0, sizeof(qm_model));
        if (!qm_read_model(&in, bound, numbered, before, &models->list[models->count])) break;
        before = models->list[models->count++].entity;
    }
    if (!in.fault && in.at < size) qm_fail(&in, "trailing", in.at);
    if (!in.fault) return NULL;
    if (place) *place = in.place;
    qm_free_models(models);
    return in.fault;
}

static inline const char *qm_load_models(const qm_tree *tree, qm_models *models) {
    uint64_t size;
    const unsigned char *bytes = qm_section(tree, QM_MODELS, &size);
    const char *fault;
    memset(models, 0, sizeof *models);
    if (!bytes) return "no part";
    fault = qm_read_models(bytes, size, tree->bound, tree->numbered, models, NULL);
    return fault && strcmp(fault, "no memory") ? "bad part" : fault;
}

static inline void qm_free_models(qm_models *models) {
    int64_t at;
    for (at = 0; at < models->count; at++) qm_free(&models->list[at].tree);
    free(models->list);
    memset(models, 0, sizeof *models);
}

/* the plane of a number, or 0 where there is none: its normal and its distance. A wall of the cube is turned inward */
static inline int qm_named_plane(const qm_tree *tree, int64_t number, int64_t plane[4]) {
    int axis;
    if (number >= tree->planes || number < -6) return 0;
    if (number >= 0) {
        const unsigned char *at = tree->plane_bytes + 20 * number;
        for (axis = 0; axis < 3; axis++) plane[axis] = qm_i32(at + 4 * axis);
        plane[3] = qm_i64(at + 12);
    } else {
        for (axis = 0; axis < 3; axis++) plane[axis] = (-1 - number) / 2 != axis ? 0 : (-1 - number) % 2 ? -1 : 1;
        plane[3] = -(int64_t)tree->bound;
    }
    return 1;
}

/* the direction across the normals of two planes */
static inline void qm_across(const int64_t one[4], const int64_t other[4], int64_t across[3]) {
    int axis;
    for (axis = 0; axis < 3; axis++)
        across[axis] = one[(axis + 1) % 3] * other[(axis + 2) % 3] - one[(axis + 2) % 3] * other[(axis + 1) % 3];
}

/* rounded down: a number over a power of two */
static inline int64_t qm_over(int64_t number, int bits) { return number >= 0 ? number >> bits : -1 - ((-1 - number) >> bits); }

/* the sum of three products, each of a number up to 2^44 and one up to 2^53, both also below 0: the nearest double, and 0 for 0 alone */
static inline double qm_sum(const int64_t one[3], const int64_t other[3]) {
    const int64_t low_24 = (int64_t)1 << 24, low_30 = (int64_t)1 << 30, low_54 = (int64_t)1 << 54;
    int64_t high = 0, middle = 0, low = 0;
    int at;
    for (at = 0; at < 3; at++) {
        int64_t a = qm_over(one[at], 24), b = one[at] - a * low_24, c = qm_over(other[at], 30), d = other[at] - c * low_30;
        high += a * c;                /* times 2^54 */
        middle += 64 * b * c + a * d; /* times 2^24 */
        low += b * d;
    }
    middle += qm_over(low, 24);
    low -= qm_over(low, 24) * low_24;
    high += qm_over(middle, 30);
    low += (middle - qm_over(middle, 30) * low_30) * low_24;
    if (low > low_54 / 2) {
        low -= low_54;
        high++;
    }
    return (double)high * (double)low_54 + (double)low;
}

/* the weight of the point in which three planes meet, 0 if they do not meet in exactly one, and with it the point if that is wanted */
static inline double qm_meeting(int64_t planes[3][4], double *point) {
    int64_t across[3][3], ends[3], parts[3];
    double weight;
    int at, axis;
    for (at = 0; at < 3; at++) {
        qm_across(planes[(at + 1) % 3], planes[(at + 2) % 3], across[at]);
        ends[at] = planes[at][3];
    }
    weight = qm_sum(planes[0], across[0]);
    for (axis = 0; point && axis < 3; axis++) {
        for (at = 0; at < 3; at++) parts[at] = across[at][axis];
        point[axis] = qm_sum(ends, parts) / weight + 0.0;
    }
    return weight;
}

static inline int64_t qm_corner_plane(const qm_face *face, uint32_t corner, int which) {
    return qm_i64(face->corner_bytes + 24 * (uint64_t)corner + 8 * which);
}

/* the three planes of a corner, or 0 where one is not there */
static inline int qm_corner_planes(const qm_tree *tree, const qm_face *face, uint32_t corner, int64_t planes[3][4]) {
    int which;
    for (which = 0; which < 3; which++)
        if (!qm_named_plane(tree, qm_corner_plane(face, corner, which), planes[which])) return 0;
    return 1;
}

/* the next face; its form is checked once all its bytes are there */
static inline int qm_read_face(qm_reader *in, const qm_tree *tree, qm_face *face) {
    uint64_t begin = in->at;
    int64_t planes[3][4];
    uint32_t corner;
    const unsigned char *at = qm_take(in, 24);
    int good;
    if (!at) return 0;
    good = qm_u64(at) < (uint64_t)tree->leaves && qm_u32(at + 20) >= 3;
    face->leaf = qm_i64(at);
    face->brush = qm_u64(at + 8);
    face->face = qm_u32(at + 16);
    face->corners = qm_u32(at + 20);
    if (!(face->corner_bytes = qm_take(in, 24 * (uint64_t)face->corners))) return 0;
    for (corner = 0; good && corner < face->corners; corner++)
        good = qm_corner_planes(tree, face, corner, planes) && qm_meeting(planes, NULL) != 0;
    return good || qm_fail(in, "form", begin);
}

static inline const char *qm_read_faces(const unsigned char *bytes, uint64_t size, const qm_tree *tree, qm_faces *faces, uint64_t *place) {
    qm_reader in;
    const unsigned char *at;
    uint64_t due;
    int64_t room = 0;
    memset(&in, 0, sizeof in);
    memset(faces, 0, sizeof *faces);
    in.bytes = bytes;
    in.size = size;
    at = qm_take(&in, 8);
    for (due = at ? qm_u64(at) : 0; due > 0 && !in.fault; due--) {
        if (faces->count == room) {
            int64_t more = room ? 2 * room : 64;
            void *list = (uint64_t)more > SIZE_MAX / sizeof(qm_face) ? NULL : realloc(faces->list, (size_t)more * sizeof(qm_face));
            if (!list) {
                qm_fail(&in, "no memory", 0);
                break;
            }
            faces->list = (qm_face *)list;
            room = more;
        }
        if (qm_read_face(&in, tree, &faces->list[faces->count])) faces->count++;
    }
    if (!in.fault && in.at < size) qm_fail(&in, "trailing", in.at);
    if (!in.fault) return NULL;
    if (place) *place = in.place;
    qm_free_faces(faces);
    return in.fault;
}

static inline const char *qm_load_faces(const qm_tree *tree, qm_faces *faces) {
    uint64_t size;
    const unsigned char *bytes = qm_section(tree, QM_FACES, &size);
    const char *fault;
    memset(faces, 0, sizeof *faces);
    if (!bytes) return "no part";
    fault = qm_read_faces(bytes, size, tree, faces, NULL);
    return fault && strcmp(fault, "no memory") ? "bad part" : fault;
}

static inline void qm_free_faces(qm_faces *faces) {
    free(faces->list);
    memset(faces, 0, sizeof *faces);
}

/* Asking */

static inline int64_t qm_root(const qm_tree *tree) { return tree->nodes ? 0 : -1; }

static inline const unsigned char *qm_node(const qm_tree *tree, int64_t node) { return tree->node_bytes + 20 * node; }

static inline int64_t qm_child(const unsigned char *node, int to_front) { return qm_i64(node + (to_front ? 4 : 12)); }

static inline const unsigned char *qm_plane(const qm_tree *tree, const unsigned char *node) {
    return tree->plane_bytes + 20 * (int64_t)qm_u32(node);
}

/* how far in front of a plane a point is, as a multiple of the normal's length */
static inline double qm_side(const unsigned char *plane, const double point[3]) {
    return (double)qm_i32(plane) * point[0] + (double)qm_i32(plane + 4) * point[1] + (double)qm_i32(plane + 8) * point[2] -
           (double)qm_i64(plane + 12);
}

static inline int64_t qm_leaf_at(const qm_tree *tree, const double point[3]) {
    int64_t child = qm_root(tree);
    while (child >= 0) {
        const unsigned char *node = qm_node(tree, child);
        child = qm_child(node, qm_side(qm_plane(tree, node), point) >= 0);
    }
    return -1 - child;
}

static inline int qm_contents(const qm_tree *tree, int64_t leaf) { return qm_i32(tree->leaf_bytes + 5 * leaf); }

static inline int qm_is_filled(const qm_tree *tree, int64_t leaf) { return tree->leaf_bytes[5 * leaf + 4]; }

static inline int64_t qm_number_of(const qm_tree *tree, int64_t leaf) { return tree->numbers[leaf]; }

static inline int qm_contents_at(const qm_tree *tree, const double point[3]) { return qm_contents(tree, qm_leaf_at(tree, point)); }

static inline size_t qm_row_size(const qm_tree *tree) { return (size_t)((tree->numbered + 7) / 8); }

static inline int qm_has_row(const qm_tree *tree, int64_t number) { return tree->has_rows && number >= 0 && number < tree->numbered; }

static inline int qm_row(const qm_tree *tree, int64_t number, unsigned char *row) {
    const unsigned char *at;
    unsigned char *end = row + qm_row_size(tree);
    if (!qm_has_row(tree, number)) return 0;
    for (at = tree->rows[number]; row < end;) {
        if (*at) {
            *row++ = *at++;
        } else {
            memset(row, 0, at[1]);
            row += at[1];
            at += 2;
        }
    }
    return 1;
}

static inline int qm_holds(const unsigned char *row, int64_t number) { return number >= 0 && (row[number >> 3] >> (number & 7) & 1); }

static inline int qm_sees(const qm_tree *tree, int64_t number, int64_t other) {
    const unsigned char *at;
    int64_t place = other >> 3;
    if (!qm_has_row(tree, number) || other < 0 || other >= tree->numbered) return 0;
    for (at = tree->rows[number]; place > 0; at += *at ? 1 : 2) place -= *at ? 1 : at[1];
    /* below 0 the place lies within zeros */
    return place == 0 && (*at >> (other & 7) & 1);
}

/* a node is crossed where its plane parts the two ends, always at the same part of the segment; so each span ends after the one before */
static inline qm_span qm_span_at(const qm_tree *tree, const double from[3], const double to[3], double at) {
    qm_span span;
    int64_t child = qm_root(tree);
    span.to = 1;
    while (child >= 0) {
        const unsigned char *node = qm_node(tree, child), *plane = qm_plane(tree, node);
        double here = qm_side(plane, from), there = qm_side(plane, to);
        int to_front = here >= 0 && there >= 0;
        if (!to_front && !(here <= 0 && there <= 0)) {
            double cut = here / (here - there);
            to_front = (here > 0) == (at < cut);
            if (at < cut && cut < span.to) span.to = cut;
        }
        child = qm_child(node, to_front);
    }
    span.leaf = -1 - child;
    return span;
}

static inline double qm_struck(const qm_tree *tree, const double from[3], const double to[3]) {
    double at = 0;
    while (at < 1) {
        qm_span span = qm_span_at(tree, from, to, at);
        if (qm_contents(tree, span.leaf) == QM_SOLID) return at;
        at = span.to;
    }
    return 1;
}

static inline const qm_model *qm_model_of(const qm_models *models, uint64_t entity) {
    int64_t low = 0, high = models->count;
    while (low < high) {
        int64_t middle = low + (high - low) / 2;
        if (models->list[middle].entity < entity) low = middle + 1;
        else high = middle;
    }
    return low < models->count && models->list[low].entity == entity ? &models->list[low] : NULL;
}

static inline int64_t qm_touched(const qm_model *model, int64_t at) { return qm_i64(model->touched_bytes + 8 * at); }

static inline int qm_is_drawn(const qm_model *model, const unsigned char *row) {
    int64_t at;
    for (at = 0; at < model->touched; at++)
        if (qm_holds(row, qm_touched(model, at))) return 1;
    return 0;
}

#define QM_DEEPEST 1024

static inline int qm_box_is_drawn(const qm_tree *tree, const unsigned char *row, const double low[3], const double high[3]) {
    int64_t waiting[QM_DEEPEST + 1];
    int count = 1;
    waiting[0] = qm_root(tree);
    while (count) {
        int64_t child = waiting[--count], number;
        const unsigned char *node, *plane;
        double least, most, slack;
        int axis;
        if (child < 0) {
            number = qm_number_of(tree, -1 - child);
            if (number >= 0 && qm_holds(row, number)) return 1;
            continue;
        }
        if (count + 2 > QM_DEEPEST) return 1;
        node = qm_node(tree, child);
        plane = qm_plane(tree, node);
        least = most = -(double)qm_i64(plane + 12);
        slack = most < 0 ? -most : most;
        for (axis = 0; axis < 3; axis++) {
            double one = (double)qm_i32(plane + 4 * axis) * low[axis], other = (double)qm_i32(plane + 4 * axis) * high[axis];
            least += one < other ? one : other;
            most += one < other ? other : one;
            slack += (one < 0 ? -one : one) + (other < 0 ? -other : other);
        }
        /* so that rounding leaves no leaf out */
        slack *= 1e-14;
        if (least <= slack) waiting[count++] = qm_child(node, 0);
        if (most >= -slack) waiting[count++] = qm_child(node, 1);
    }
    return 0;
}

static inline void qm_corner(const qm_tree *tree, const qm_face *face, uint32_t corner, double point[3]) {
    int64_t planes[3][4];
    if (qm_corner_planes(tree, face, corner, planes)) qm_meeting(planes, point);
}

/* Contacts. At each node the part of its plane inside the node's cell is found, as a convex polygon, and is then cut by the nodes below,
   first on the front and then on the back, so that each piece lies between two leaves. */

#define QM_CORNERS 64

/* a polygon, its corners one after another, between what is in front of it and what is behind it */
typedef struct {
    int64_t front, back;
    int count;
    double corners[3 * QM_CORNERS];
} qm_pane;

/* what has room for more items; they stay where they are if there is no memory */
typedef struct {
    void *items;
    size_t count, room, size;
} qm_stack;

static inline int qm_push(qm_stack *stack, const void *item) {
    if (stack->count == stack->room) {
        size_t room = 2 * stack->room + 16;
        void *more = room > (size_t)-1 / stack->size ? NULL : realloc(stack->items, room * stack->size);
        if (!more) return 0;
        stack->items = more;
        stack->room = room;
    }
    memcpy((unsigned char *)stack->items + stack->size * stack->count++, item, stack->size);
    return 1;
}

/* how far in front of a plane of doubles a corner is, as a multiple of the normal's length; 0 if it is next to the plane */
static inline double qm_corner_side(const double plane[4], const double *corner) {
    double side = plane[0] * corner[0] + plane[1] * corner[1] + plane[2] * corner[2] - plane[3];
    double length = plane[0] * plane[0] + plane[1] * plane[1] + plane[2] * plane[2];
    return side * side <= 1e-10 * length ? 0 : side;
}

/* what a polygon has on one side of a plane: whether there is anything. A polygon on the plane counts as in front */
static inline int qm_cut(const qm_pane *from, const double plane[4], int to_front, qm_pane *part) {
    int at, count = 0, is_there = 0, is_on = 1;
    double sign = to_front ? 1 : -1;
    if (from->count == QM_CORNERS) {
        /* no room for another corner: the whole is too much, and leaves nothing out */
        *part = *from;
        return 1;
    }
    for (at = 0; at < from->count; at++) {
        const double *here = from->corners + 3 * at, *next = from->corners + 3 * ((at + 1) % from->count);
        double side = sign * qm_corner_side(plane, here), beyond = sign * qm_corner_side(plane, next);
        int axis;
        is_there |= side > 0;
        is_on &= !(side < 0 || side > 0);
        if (side >= 0 && count < QM_CORNERS) memcpy(part->corners + 3 * count++, here, 3 * sizeof *here);
        if (((side > 0 && beyond < 0) || (side < 0 && beyond > 0)) && count < QM_CORNERS) {
            for (axis = 0; axis < 3; axis++)
                part->corners[3 * count + axis] = here[axis] + side / (side - beyond) * (next[axis] - here[axis]);
            count++;
        }
    }
    part->front = from->front;
    part->back = from->back;
    part->count = count;
    return is_there || (is_on && to_front);
}

static inline void qm_plane_doubles(const unsigned char *bytes, double plane[4]) {
    int axis;
    for (axis = 0; axis < 3; axis++) plane[axis] = qm_i32(bytes + 4 * axis);
    plane[3] = (double)qm_i64(bytes + 12);
}

/* the part of a node's plane inside the node's cell: whether there is any. `above` has the node above each node */
static inline int qm_pane_of(const qm_tree *tree, const int64_t *above, int64_t node, qm_pane *pane) {
    double plane[4], bound = tree->bound;
    int axis = 0, at, end;
    qm_pane part;
    qm_plane_doubles(qm_plane(tree, qm_node(tree, node)), plane);
    for (at = 1; at < 3; at++)
        if (plane[at] * plane[at] > plane[axis] * plane[axis]) axis = at;
    pane->front = qm_child(qm_node(tree, node), 1);
    pane->back = qm_child(qm_node(tree, node), 0);
    pane->count = 4;
    for (at = 0; at < 4; at++) {
        double *corner = pane->corners + 3 * at;
        int one = (axis + 1) % 3, other = (axis + 2) % 3;
        corner[one] = at == 1 || at == 2 ? bound : -bound;
        corner[other] = at >= 2 ? bound : -bound;
        corner[axis] = (plane[3] - plane[one] * corner[one] - plane[other] * corner[other]) / plane[axis];
    }
    for (end = 0; end < 2; end++) {
        double wall[4] = {0, 0, 0, 0};
        wall[axis] = 1;
        wall[3] = end ? bound : -bound;
        if (!qm_cut(pane, wall, !end, &part)) return 0;
        *pane = part;
    }
    while (node) {
        const unsigned char *up = qm_node(tree, above[node]);
        qm_plane_doubles(qm_plane(tree, up), plane);
        if (!qm_cut(pane, plane, qm_child(up, 1) == node, &part)) return 0;
        *pane = part;
        node = above[node];
    }
    return 1;
}

/* adds the pairs of numbered leaves of different contents that a pane parts: whether there was memory */
static inline int qm_part_pane(const qm_tree *tree, const qm_pane *whole, qm_stack *waiting, qm_stack *pairs) {
    waiting->count = 0;
    if (!qm_push(waiting, whole)) return 0;
    while (waiting->count) {
        qm_pane pane = ((qm_pane *)waiting->items)[--waiting->count], part;
        double plane[4];
        int to_front, in_front = pane.front >= 0;
        int64_t node = in_front ? pane.front : pane.back;
        if (node < 0) {
            int64_t pair[2] = {qm_number_of(tree, -1 - pane.front), qm_number_of(tree, -1 - pane.back)};
            int differ = qm_contents(tree, -1 - pane.front) != qm_contents(tree, -1 - pane.back);
            if (pair[0] >= 0 && pair[1] >= 0 && differ && !qm_push(pairs, pair)) return 0;
            continue;
        }
        qm_plane_doubles(qm_plane(tree, qm_node(tree, node)), plane);
        for (to_front = 0; to_front < 2; to_front++) {
            if (!qm_cut(&pane, plane, to_front, &part)) continue;
            if (in_front) part.front = qm_child(qm_node(tree, node), to_front);
            else part.back = qm_child(qm_node(tree, node), to_front);
            if (!qm_push(waiting, &part)) return 0;
        }
    }
    return 1;
}

/* lists the pairs by each of their two numbers: whether there was memory */
static inline int qm_list_pairs(const qm_tree *tree, const qm_stack *pairs, qm_contacts *contacts) {
    const int64_t *all = (const int64_t *)pairs->items;
    size_t at, numbered = (size_t)tree->numbered, count = 2 * pairs->count;
    contacts->first = (int64_t *)calloc(numbered + 2, sizeof(int64_t));
    contacts->others = (int64_t *)calloc(count + 1, sizeof(int64_t));
    if (!contacts->first || !contacts->others) return 0;
    for (at = 0; at < count; at++) contacts->first[all[at] + 2]++;
    for (at = 2; at < numbered + 2; at++) contacts->first[at] += contacts->first[at - 1];
    for (at = 0; at < count; at++) contacts->others[contacts->first[all[at] + 1]++] = all[at ^ 1];
    return 1;
}

static inline const char *qm_find_contacts(const qm_tree *tree, qm_contacts *contacts) {
    qm_stack waiting = {NULL, 0, 0, sizeof(qm_pane)}, pairs = {NULL, 0, 0, 2 * sizeof(int64_t)};
    int64_t *above = (int64_t *)calloc((size_t)tree->nodes + 1, sizeof(int64_t)), node;
    int good = above != NULL, to_front;
    contacts->first = contacts->others = NULL;
    for (node = 0; good && node < tree->nodes; node++)
        for (to_front = 0; to_front < 2; to_front++)
            if (qm_child(qm_node(tree, node), to_front) >= 0) above[qm_child(qm_node(tree, node), to_front)] = node;
    for (node = 0; good && node < tree->nodes; node++) {
        qm_pane pane;
        if (qm_pane_of(tree, above, node, &pane)) good = qm_part_pane(tree, &pane, &waiting, &pairs);
    }
    good = good && qm_list_pairs(tree, &pairs, contacts);
    free(above);
    free(waiting.items);
    free(pairs.items);
    if (!good) qm_free_contacts(contacts);
    return good ? NULL : "no memory";
}

static inline void qm_free_contacts(qm_contacts *contacts) {
    free(contacts->first);
    free(contacts->others);
    contacts->first = contacts->others = NULL;
}

static inline void qm_add_row(const qm_tree *tree, int64_t number, unsigned char *all) {
    const unsigned char *at;
    unsigned char *end = all + qm_row_size(tree);
    if (!qm_has_row(tree, number)) return;
    for (at = tree->rows[number]; all < end; at += *at ? 1 : 2) {
        *all = (unsigned char)(*all | *at);
        all += *at ? 1 : at[1];
    }
}

static inline void qm_add_beyond(const qm_tree *tree, const qm_contacts *contacts, const unsigned char *row, unsigned char *all, int through) {
    int64_t number, at;
    for (number = 0; number < tree->numbered; number++) {
        if (!qm_holds(row, number)) continue;
        for (at = contacts->first[number]; at < contacts->first[number + 1]; at++) {
            int64_t other = contacts->others[at];
            all[other >> 3] = (unsigned char)(all[other >> 3] | 1 << (other & 7));
            if (through) qm_add_row(tree, other, all);
        }
    }
}

static inline void qm_add_touching(const qm_tree *tree, const qm_contacts *contacts, const unsigned char *row, unsigned char *all) {
    qm_add_beyond(tree, contacts, row, all, 0);
}

static inline void qm_add_through(const qm_tree *tree, const qm_contacts *contacts, const unsigned char *row, unsigned char *all) {
    qm_add_beyond(tree, contacts, row, all, 1);
}

#endif
