__kernel void k(__global uint *a) {
    a[get_global_id(0)] = get_global_id(0) + 7;
}
