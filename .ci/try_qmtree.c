/* Reads files from standard input, each behind its length, and prints what docs/qmtree.h finds in it: the first fault, or all that can
   be asked. Each file stands in memory of just its length. `.ci/check_qmtree.py` compares that with what the slow reader finds. */

#include <stdio.h>

#include "qmtree.h"

/* the places that are asked for, and so are the segments from each to the next */
static const double PLACES[][3] = {{1, 1, 1}, {0, 0, 0}, {-40.5, 300.25, 17}, {-4095, 4000, -3999.5}, {33, -20, 60}, {2000, -7, 64}};
enum { MANY = sizeof PLACES / sizeof *PLACES };

static void print_rows(const qm_tree *tree) {
    unsigned char *row = (unsigned char *)malloc(qm_row_size(tree) + 1);
    uint64_t held = 0;
    for (int64_t own = -1; own <= tree->numbered; own++) {
        if (!qm_row(tree, own, row)) continue;
        for (int64_t other = 0; other < tree->numbered; other++) {
            if (qm_sees(tree, own, other) != qm_holds(row, other)) printf("sees and holds differ\n");
            if (qm_holds(row, other)) held += (uint64_t)(31 * own + other);
        }
        if (qm_sees(tree, own, -1) || qm_sees(tree, own, tree->numbered)) printf("sees what is not there\n");
    }
    printf(tree->has_rows ? "rows %llu\n" : "no rows\n", (unsigned long long)held);
    free(row);
}

static void print_places(const qm_tree *tree) {
    for (int at = 0; at < MANY; at++) {
        int64_t leaf = qm_leaf_at(tree, PLACES[at]);
        printf("at %lld %d %d %lld struck %.9f\n", (long long)leaf, qm_contents_at(tree, PLACES[at]), qm_is_filled(tree, leaf),
               (long long)qm_number_of(tree, leaf), qm_struck(tree, PLACES[at], PLACES[(at + 1) % MANY]));
    }
}

/* the section by itself too, for its fault and the place of that */
static void print_models(const qm_tree *tree) {
    qm_models models = {0, NULL};
    uint64_t size, place = 0;
    const unsigned char *bytes = qm_section(tree, QM_MODELS, &size);
    const char *fault = bytes ? qm_read_models(bytes, size, tree->bound, tree->numbered, &models, &place) : NULL, *why;
    qm_free_models(&models);
    why = qm_load_models(tree, &models);
    if (why) printf("models: %s %s %llu\n", why, fault ? fault : "-", (unsigned long long)place);
    unsigned char *row = (unsigned char *)malloc(qm_row_size(tree) + 1);
    for (int64_t at = 0; at < models.count; at++) {
        const qm_model *model = &models.list[at];
        printf("model %llu box %d %d %d %d %d %d leaves", (unsigned long long)model->entity, model->low[0], model->low[1], model->low[2],
               model->high[0], model->high[1], model->high[2]);
        for (int64_t place_of = 0; place_of < model->touched; place_of++) printf(" %lld", (long long)qm_touched(model, place_of));
        printf(" drawn");
        for (int64_t own = 0; own < tree->numbered; own++) printf(" %d", qm_row(tree, own, row) && qm_is_drawn(model, row));
        printf(" there %d\n", qm_model_of(&models, model->entity) == model && !qm_model_of(&models, 0));
        print_places(&model->tree);
    }
    free(row);
    qm_free_models(&models);
}

/* the section by itself too, as above */
static void print_faces(const qm_tree *tree) {
    qm_faces faces = {0, NULL};
    uint64_t size, place = 0;
    const unsigned char *bytes = qm_section(tree, QM_FACES, &size);
    const char *fault = bytes ? qm_read_faces(bytes, size, tree, &faces, &place) : NULL, *why;
    qm_free_faces(&faces);
    why = qm_load_faces(tree, &faces);
    if (why) printf("faces: %s %s %llu\n", why, fault ? fault : "-", (unsigned long long)place);
    for (int64_t at = 0; at < faces.count; at++) {
        const qm_face *face = &faces.list[at];
        printf("leaf %lld brush %llu face %lu corners %lu\n", (long long)face->leaf, (unsigned long long)face->brush,
               (unsigned long)face->face, (unsigned long)face->corners);
        for (uint32_t corner = 0; corner < face->corners; corner++) {
            double point[3] = {0, 0, 0};
            qm_corner(tree, face, corner, point);
            for (int which = 0; which < 3; which++)
                printf("plane %lld part %.17g\n", (long long)qm_corner_plane(face, corner, which), point[which]);
        }
    }
    qm_free_faces(&faces);
}

/* prints nothing if contacts go both ways between numbered leaves of different contents, and what they add to rows is there */
static void try_contacts(const qm_tree *tree) {
    size_t size = qm_row_size(tree) + 1;
    unsigned char *row = (unsigned char *)calloc(size, 1), *all = (unsigned char *)calloc(size, 1);
    int *held = (int *)calloc((size_t)tree->numbered + 1, sizeof(int));
    qm_contacts contacts;
    int64_t own = 0, sum = 0;
    if (qm_find_contacts(tree, &contacts)) {
        printf("contacts find no memory\n");
    } else {
        for (int64_t leaf = 0; leaf < tree->leaves; leaf++)
            if (qm_number_of(tree, leaf) >= 0) held[qm_number_of(tree, leaf)] = qm_contents(tree, leaf);
        for (; own < tree->numbered; own++) {
            row[own >> 3] = (unsigned char)(1 << (own & 7));
            memset(all, 0, size);
            qm_add_touching(tree, &contacts, row, all);
            for (int64_t at = contacts.first[own]; at < contacts.first[own + 1]; at++) {
                int64_t other = contacts.others[at];
                if (held[other] == held[own] || !qm_holds(all, other)) printf("contacts of %lld are wrong\n", (long long)own);
                sum += own * 7 + other * other - other * 7 - own * own;
            }
            qm_add_through(tree, &contacts, row, all);
            row[own >> 3] = 0;
        }
        if (sum || all[size - 1]) printf("contacts go one way\n");
        qm_free_contacts(&contacts);
    }
    free(row);
    free(all);
    free(held);
}

int main(void) {
    unsigned char length[8];
    while (fread(length, 1, 8, stdin) == 8) {
        size_t size = (size_t)qm_u64(length);
        unsigned char *file = (unsigned char *)malloc(size ? size : 1);
        qm_tree tree, hull;
        uint64_t place = 0;
        if (!file || fread(file, 1, size, stdin) != size) return 1;
        const char *fault = qm_load(&tree, file, size, &place);
        if (fault) {
            printf("%s at byte %llu\n", fault, (unsigned long long)place);
        } else {
            printf("version %d bound %d planes %lld nodes %lld leaves %lld numbered %lld sections %lu\n", tree.version, (int)tree.bound,
                   (long long)tree.planes, (long long)tree.nodes, (long long)tree.leaves, (long long)tree.numbered, (unsigned long)tree.sections);
            print_rows(&tree);
            print_places(&tree);
            for (uint32_t which = 0; which <= 3; which++) {
                const char *why = qm_load_hull(&tree, which, &hull);
                printf("hull %s\n", why ? why : "");
                if (!why) print_places(&hull);
                qm_free(&hull);
            }
            print_models(&tree);
            print_faces(&tree);
            try_contacts(&tree);
        }
        printf(".\n");
        qm_free(&tree);
        free(file);
    }
    return 0;
}
