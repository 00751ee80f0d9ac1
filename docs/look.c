/* look.c: prints what an engine asks of a tree file, by qmtree.h. An example: take from it what you need.

       cc -o look look.c
       ./look courtyard.tree -208 -128 46 400 150 60

   It prints the leaf of a point, what is drawn from there, models and faces, and what each clip hull has there; with a second point
   also the way to it; and with three more numbers which models are drawn if they move that far. */

#include <stdio.h>
#include "qmtree.h"

/* loads a tree file of up to 16 MiB, or says why not. The bytes have to stay where they are: tree, hulls, models and faces use them */
static int load(const char *name, qm_tree *tree) {
    static unsigned char file[1 << 24];
    FILE *in = fopen(name, "rb");
    size_t size = in ? fread(file, 1, sizeof file, in) : 0;
    uint64_t place = 0;
    const char *fault = qm_load(tree, file, size, &place);
    if (in) fclose(in);
    if (fault) fprintf(stderr, "%s: %s, byte %llu\n", name, fault, (unsigned long long)place);
    return !fault;
}

/* prints the leaves of a row that another one lacks, by their numbers */
static void list(const qm_tree *tree, const char *word, const unsigned char *row, const unsigned char *without) {
    printf("%s:", word);
    for (int64_t number = 0; number < tree->numbered; number++)
        if (qm_holds(row, number) && !(without && qm_holds(without, number))) printf(" %lld", (long long)number);
    printf("\n");
}

/* makes `row` the row of the leaf of a place, in which all is drawn if there is none, and `all` the same with what touches it. A lift that
   stands in water alone is in no row of air, so models are drawn by `all` */
static void visible(const qm_tree *tree, const qm_contacts *contacts, const double eye[3], unsigned char *row, unsigned char *all) {
    if (!qm_row(tree, qm_number_of(tree, qm_leaf_at(tree, eye)), row)) memset(row, 0xff, qm_row_size(tree));
    memcpy(all, row, qm_row_size(tree));
    qm_add_touching(tree, contacts, row, all);
}

/* prints what is drawn from a place: leaves, those of other contents that touch them, what is seen through these, and models */
static void draw(const qm_tree *tree, const qm_contacts *contacts, const qm_models *models, const double eye[3], unsigned char *row,
                 unsigned char *all) {
    visible(tree, contacts, eye, row, all);
    printf("number %lld\n", (long long)qm_number_of(tree, qm_leaf_at(tree, eye)));
    list(tree, "row", row, NULL);
    list(tree, "touching", all, row);
    qm_add_through(tree, contacts, row, all);
    list(tree, "through", all, row);
    visible(tree, contacts, eye, row, all);
    for (int64_t at = 0; at < models->count; at++) {
        const qm_model *model = &models->list[at];
        printf("model %llu: %s, %d there\n", (unsigned long long)model->entity,
               qm_is_drawn(model, all) ? "drawn" : "not drawn", qm_contents_at(&model->tree, eye));
    }
}

/* whether a model that has moved some way is to be drawn, by a row that is decoded */
static int is_drawn_moved(const qm_tree *tree, const qm_model *model, const double way[3], const unsigned char *row) {
    double low[3], high[3];
    for (int axis = 0; axis < 3; axis++) {
        low[axis] = model->low[axis] + way[axis];
        high[axis] = model->high[axis] + way[axis];
    }
    return qm_box_is_drawn(tree, row, low, high);
}

/* prints the faces of the leaves that a decoded row holds, with their corners: convex polygons, clockwise as seen from the leaf */
static void draw_faces(const qm_tree *tree, const qm_faces *faces, const unsigned char *row) {
    for (int64_t at = 0; at < faces->count; at++) {
        const qm_face *face = &faces->list[at];
        int64_t number = qm_number_of(tree, face->leaf);
        if (number < 0 || !qm_holds(row, number)) continue;
        printf("face %lld of brush %llu, face %lu:", (long long)at, (unsigned long long)face->brush, (unsigned long)face->face);
        for (uint32_t corner = 0; corner < face->corners; corner++) {
            double point[3];
            qm_corner(tree, face, corner, point);
            printf(" (%.9g %.9g %.9g)", point[0], point[1], point[2]);
        }
        printf("\n");
    }
}

/* prints each leaf along a segment, and at which part of it that ends */
static void follow(const qm_tree *tree, const double from[3], const double to[3]) {
    for (double at = 0; at < 1;) {
        qm_span span = qm_span_at(tree, from, to, at);
        printf("leaf %lld contents %d to %.9f\n", (long long)span.leaf, qm_contents(tree, span.leaf), span.to);
        at = span.to;
    }
}

/* prints what a clip hull has at a point, and where the way to another one is blocked */
static void ask_hull(const qm_tree *tree, uint32_t which, const double from[3], const double to[3]) {
    qm_tree hull;
    const char *why = qm_load_hull(tree, which, &hull);
    if (why) {
        printf("hull %lu: %s\n", (unsigned long)which, why);
        return;
    }
    printf("hull %lu: %s, solid at %.9f\n", (unsigned long)which, qm_contents_at(&hull, from) == QM_SOLID ? "solid" : "empty",
           qm_struck(&hull, from, to));
    qm_free(&hull);
}

int main(int count, char **words) {
    double numbers[9] = {0};
    qm_tree tree;
    qm_models models;
    qm_faces faces;
    qm_contacts contacts;
    if (count != 5 && count != 8 && count != 11) return fprintf(stderr, "usage: look FILE X Y Z [U V W [MX MY MZ]]\n"), 2;
    for (int at = 2; at < count; at++) numbers[at - 2] = atof(words[at]);
    if (!load(words[1], &tree)) return 1;
    const double *from = numbers, *to = count > 5 ? numbers + 3 : from;
    unsigned char *row = malloc(qm_row_size(&tree) + 1), *all = malloc(qm_row_size(&tree) + 1);
    const char *none = qm_load_models(&tree, &models), *bare = qm_load_faces(&tree, &faces);
    if (!row || !all || qm_find_contacts(&tree, &contacts)) return 1;
    int64_t leaf = qm_leaf_at(&tree, from);
    printf("leaf %lld contents %d\n", (long long)leaf, qm_contents(&tree, leaf));
    if (none) printf("models: %s\n", none);
    draw(&tree, &contacts, &models, from, row, all);
    if (bare) printf("faces: %s\n", bare);
    draw_faces(&tree, &faces, all);
    for (uint32_t which = QM_HULL_1; which <= QM_HULL_2; which++) ask_hull(&tree, which, from, to);
    if (count > 5) follow(&tree, from, to);
    for (int64_t at = 0; count > 8 && at < models.count; at++)
        if (is_drawn_moved(&tree, &models.list[at], numbers + 6, all)) printf("drawn if moved: %llu\n", (unsigned long long)models.list[at].entity);
    qm_free_contacts(&contacts);
    qm_free_faces(&faces);
    qm_free_models(&models);
    qm_free(&tree);
    free(row);
    free(all);
    return 0;
}
