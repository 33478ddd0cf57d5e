/* logs.h - the hulls of the sample programs: logs and boards, made from their vertices and faces, in metres. */
#ifndef LOGS_H
#define LOGS_H

#include <contact.h>

#include <math.h>

enum { SIDES = 12, MOST_VERTICES = 128, MOST_NUMBERS = 902, MOST_LINKS = 1280 };

typedef struct {
    contact_size size;
    float numbers[MOST_NUMBERS];
    uint8_t links[MOST_LINKS];
} hull;

/* A face as the ring of its vertices, counter-clockwise as seen from outside. */
typedef struct {
    int sides;
    int corners[SIDES];
} ring;

/* The plane of a ring: normal x, y, z and offset. */
static inline void make_plane(const float *vertices, const ring *face, float *plane) {
    double normal[3] = {0, 0, 0}, length = 0, offset = 0;
    for (int i = 0; i < face->sides; i++) {
        const float *from = vertices + 3 * face->corners[i], *to = vertices + 3 * face->corners[(i + 1) % face->sides];
        for (int x = 0; x < 3; x++) {
            const int y = (x + 1) % 3, z = (x + 2) % 3;
            normal[x] += ((double)from[y] - to[y]) * ((double)from[z] + to[z]);
        }
    }
    for (int x = 0; x < 3; x++) length += normal[x] * normal[x];
    for (int x = 0; x < 3; x++) {
        plane[x] = (float)(normal[x] / sqrt(length));
        offset += (double)plane[x] * vertices[3 * face->corners[0] + x];
    }
    plane[3] = (float)offset;
}

/* The two lists of a hull from x, y, z of each vertex and the rings of its faces. Half-edges are numbered as the rings
   meet them, the two of an edge side by side. The number of vertices is a multiple of four here: no padding to fill. */
static inline void make_hull(hull *to, int vertex_count, const float *vertices, int face_count, const ring *faces) {
    static int number[MOST_VERTICES][MOST_VERTICES]; /* of the half-edge from one vertex to another, plus 1 */
    int half_edges = 0;
    memset(number, 0, sizeof number);
    for (int f = 0; f < face_count; f++) {
        for (int i = 0; i < faces[f].sides; i++) {
            const int from = faces[f].corners[i], end = faces[f].corners[(i + 1) % faces[f].sides];
            if (number[from][end]) continue;
            number[from][end] = ++half_edges;
            number[end][from] = ++half_edges;
        }
    }
    to->size = (contact_size){
        .unit = CONTACT_METRES, .vertices = (size_t)vertex_count, .half_edges = (size_t)half_edges, .faces = (size_t)face_count};
    float *box = to->numbers, *planes = box + 6 + 3 * vertex_count;
    for (int axis = 0; axis < 3; axis++) {
        float *list = box + 6 + axis * vertex_count;
        for (int v = 0; v < vertex_count; v++) {
            list[v] = vertices[3 * v + axis];
            if (v == 0 || list[v] < box[axis]) box[axis] = list[v];
            if (v == 0 || list[v] > box[3 + axis]) box[3 + axis] = list[v];
        }
    }
    uint8_t *at_vertex = to->links, *edges = at_vertex + vertex_count, *of_face = edges + 4 * half_edges;
    for (int f = 0; f < face_count; f++) {
        const int sides = faces[f].sides, *corners = faces[f].corners;
        for (int i = 0; i < sides; i++) {
            const int from = corners[i], end = corners[(i + 1) % sides], after = corners[(i + 2) % sides];
            const int edge = number[from][end] - 1;
            edges[4 * edge] = (uint8_t)(number[end][after] - 1); /* next */
            edges[4 * edge + 1] = (uint8_t)(edge ^ 1);           /* twin */
            edges[4 * edge + 2] = (uint8_t)from;                 /* origin */
            edges[4 * edge + 3] = (uint8_t)f;                    /* face */
            at_vertex[from] = (uint8_t)edge;
            if (i == 0) of_face[f] = (uint8_t)edge;
        }
        make_plane(vertices, &faces[f], planes + 4 * f);
    }
}

/* Corner i of the butt is vertex i, of the top vertex SIDES + i; faces: butt, top, sides. */
static inline void make_log(hull *to, float radius, float length) {
    float vertices[3 * 2 * SIDES];
    ring faces[2 + SIDES] = {{SIDES, {0}}, {SIDES, {0}}};
    for (int i = 0; i < SIDES; i++) {
        const double angle = (2 * i + 1) * acos(-1.0) / SIDES;
        const int next = (i + 1) % SIDES;
        for (int end = 0; end < 2; end++) {
            float *vertex = vertices + 3 * (end * SIDES + i);
            vertex[0] = end ? length / 2 : -length / 2;
            vertex[1] = (float)(radius * cos(angle));
            vertex[2] = (float)(radius * sin(angle));
        }
        faces[0].corners[SIDES - 1 - i] = i;
        faces[1].corners[i] = SIDES + i;
        faces[2 + i] = (ring){4, {i, next, SIDES + next, SIDES + i}};
    }
    make_hull(to, 2 * SIDES, vertices, 2 + SIDES, faces);
}

/* Vertex i lies at the high end of x, y or z where bit 0, 1 or 2 of i is set; faces: -x, +x, -y, +y, -z, +z. */
static inline void make_board(hull *to, float length, float width, float thickness) {
    static const ring faces[6] = {
        {4, {0, 4, 6, 2}}, {4, {1, 3, 7, 5}}, {4, {0, 1, 5, 4}}, {4, {2, 6, 7, 3}}, {4, {0, 2, 3, 1}}, {4, {4, 5, 7, 6}}};
    const float half[3] = {length / 2, width / 2, thickness / 2};
    float vertices[3 * 8];
    for (int i = 0; i < 8; i++) {
        for (int axis = 0; axis < 3; axis++) vertices[3 * i + axis] = i >> axis & 1 ? half[axis] : -half[axis];
    }
    make_hull(to, 8, vertices, 6, faces);
}

#endif
