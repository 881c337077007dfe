/* Included by asancol-cc before what Clang compiles: intrinsics in which its pass sees no access are made of loads and
   stores, which it checks. They do the same. */
#if !defined(ASANCOL_CLANG_INTRINSICS) && !defined(__ASSEMBLER__) && defined(__x86_64__) && defined(__SSE2__)          \
    && !defined(__CUDA__) && !defined(__OPENCL_VERSION__)
#define ASANCOL_CLANG_INTRINSICS
#pragma GCC system_header

#define ASANCOL_INLINE(features) static __inline__ __attribute__((always_inline, nodebug, unused, target(features)))
#define ASANCOL_VECTOR(name, type, size) typedef type asancol_##name __attribute__((vector_size(size)))
/* Of no alignment, and of any type in memory. */
#define ASANCOL_LOOSE(name, type) typedef type asancol_loose_##name __attribute__((aligned(1), may_alias))

ASANCOL_VECTOR(v16qi, char, 16);
ASANCOL_VECTOR(v32qi, char, 32);
ASANCOL_VECTOR(v4si, int, 16);
ASANCOL_VECTOR(v8si, int, 32);
ASANCOL_VECTOR(v2di, long long, 16);
ASANCOL_VECTOR(v4di, long long, 32);
ASANCOL_VECTOR(v4sf, float, 16);
ASANCOL_VECTOR(v8sf, float, 32);
ASANCOL_VECTOR(v2df, double, 16);
ASANCOL_VECTOR(v4df, double, 32);
ASANCOL_LOOSE(v16qi, asancol_v16qi);
ASANCOL_LOOSE(v32qi, asancol_v32qi);
ASANCOL_LOOSE(int, int);
ASANCOL_LOOSE(long, long long);
ASANCOL_LOOSE(float, float);
ASANCOL_LOOSE(double, double);

#define __builtin_ia32_lddqu(from) (*(const asancol_loose_v16qi *)(from))
#define __builtin_ia32_lddqu256(from) (*(const asancol_loose_v32qi *)(from))

ASANCOL_INLINE("sse2") void asancol_maskmovdqu(asancol_v16qi bytes, asancol_v16qi mask, char *to)
{
    for (int i = 0; i < 16; i++)
        if ((signed char)mask[i] < 0)
            to[i] = bytes[i];
}
#define __builtin_ia32_maskmovdqu(bytes, mask, to) asancol_maskmovdqu(bytes, mask, to)

/* The first and the last byte of what the processor's state takes, which only it can store. */
ASANCOL_INLINE("fxsr") void *asancol_state(void *at, int size)
{
    (void)((const volatile char *)at)[0];
    (void)((const volatile char *)at)[size - 1];
    return at;
}
#define __builtin_ia32_fxsave(to) __builtin_ia32_fxsave(asancol_state(to, 512))
#define __builtin_ia32_fxsave64(to) __builtin_ia32_fxsave64(asancol_state(to, 512))
#define __builtin_ia32_fxrstor(from) __builtin_ia32_fxrstor(asancol_state(from, 512))
#define __builtin_ia32_fxrstor64(from) __builtin_ia32_fxrstor64(asancol_state(from, 512))

/* As many elements as there are indices; the others of a vector become 0. */
#define ASANCOL_GATHER(name, vector, element, indices, signs, lanes)                                                   \
    ASANCOL_INLINE("avx2")                                                                                             \
    asancol_##vector asancol_##name(asancol_##vector all, const void *base, asancol_##indices at,                      \
                                    asancol_##vector mask, int scale)                                                  \
    {                                                                                                                  \
        int count = (int)(sizeof all / sizeof all[0]);                                                                 \
        for (int i = 0; i < count; i++)                                                                                \
            if (i >= lanes)                                                                                            \
                all[i] = 0;                                                                                            \
            else if (((asancol_##signs)mask)[i] < 0)                                                                   \
                all[i] = *(const asancol_loose_##element *)((const char *)base + (long long)at[i] * scale);            \
        return all;                                                                                                    \
    }
ASANCOL_GATHER(gatherd_pd, v2df, double, v4si, v2di, 2)
ASANCOL_GATHER(gatherd_pd256, v4df, double, v4si, v4di, 4)
ASANCOL_GATHER(gatherq_pd, v2df, double, v2di, v2di, 2)
ASANCOL_GATHER(gatherq_pd256, v4df, double, v4di, v4di, 4)
ASANCOL_GATHER(gatherd_ps, v4sf, float, v4si, v4si, 4)
ASANCOL_GATHER(gatherd_ps256, v8sf, float, v8si, v8si, 8)
ASANCOL_GATHER(gatherq_ps, v4sf, float, v2di, v4si, 2)
ASANCOL_GATHER(gatherq_ps256, v4sf, float, v4di, v4si, 4)
ASANCOL_GATHER(gatherd_d, v4si, int, v4si, v4si, 4)
ASANCOL_GATHER(gatherd_d256, v8si, int, v8si, v8si, 8)
ASANCOL_GATHER(gatherq_d, v4si, int, v2di, v4si, 2)
ASANCOL_GATHER(gatherq_d256, v4si, int, v4di, v4si, 4)
ASANCOL_GATHER(gatherd_q, v2di, long, v4si, v2di, 2)
ASANCOL_GATHER(gatherd_q256, v4di, long, v4si, v4di, 4)
ASANCOL_GATHER(gatherq_q, v2di, long, v2di, v2di, 2)
ASANCOL_GATHER(gatherq_q256, v4di, long, v4di, v4di, 4)
#define __builtin_ia32_gatherd_pd(...) asancol_gatherd_pd(__VA_ARGS__)
#define __builtin_ia32_gatherd_pd256(...) asancol_gatherd_pd256(__VA_ARGS__)
#define __builtin_ia32_gatherq_pd(...) asancol_gatherq_pd(__VA_ARGS__)
#define __builtin_ia32_gatherq_pd256(...) asancol_gatherq_pd256(__VA_ARGS__)
#define __builtin_ia32_gatherd_ps(...) asancol_gatherd_ps(__VA_ARGS__)
#define __builtin_ia32_gatherd_ps256(...) asancol_gatherd_ps256(__VA_ARGS__)
#define __builtin_ia32_gatherq_ps(...) asancol_gatherq_ps(__VA_ARGS__)
#define __builtin_ia32_gatherq_ps256(...) asancol_gatherq_ps256(__VA_ARGS__)
#define __builtin_ia32_gatherd_d(...) asancol_gatherd_d(__VA_ARGS__)
#define __builtin_ia32_gatherd_d256(...) asancol_gatherd_d256(__VA_ARGS__)
#define __builtin_ia32_gatherq_d(...) asancol_gatherq_d(__VA_ARGS__)
#define __builtin_ia32_gatherq_d256(...) asancol_gatherq_d256(__VA_ARGS__)
#define __builtin_ia32_gatherd_q(...) asancol_gatherd_q(__VA_ARGS__)
#define __builtin_ia32_gatherd_q256(...) asancol_gatherd_q256(__VA_ARGS__)
#define __builtin_ia32_gatherq_q(...) asancol_gatherq_q(__VA_ARGS__)
#define __builtin_ia32_gatherq_q256(...) asancol_gatherq_q256(__VA_ARGS__)

/* If it optimises, Clang makes of these what its pass knows. */
#ifndef __OPTIMIZE__
#define ASANCOL_MASKED(name, vector, element, signs)                                                                   \
    ASANCOL_INLINE("avx") asancol_##vector asancol_maskload##name(const void *from, asancol_##signs mask)              \
    {                                                                                                                  \
        asancol_##vector all = {0};                                                                                    \
        for (int i = 0; i < (int)(sizeof all / sizeof all[0]); i++)                                                    \
            if (mask[i] < 0)                                                                                           \
                all[i] = ((const asancol_loose_##element *)from)[i];                                                   \
        return all;                                                                                                    \
    }                                                                                                                  \
    ASANCOL_INLINE("avx") void asancol_maskstore##name(void *to, asancol_##signs mask, asancol_##vector all)           \
    {                                                                                                                  \
        for (int i = 0; i < (int)(sizeof all / sizeof all[0]); i++)                                                    \
            if (mask[i] < 0)                                                                                           \
                ((asancol_loose_##element *)to)[i] = all[i];                                                           \
    }
ASANCOL_MASKED(ps, v4sf, float, v4si)
ASANCOL_MASKED(ps256, v8sf, float, v8si)
ASANCOL_MASKED(pd, v2df, double, v2di)
ASANCOL_MASKED(pd256, v4df, double, v4di)
ASANCOL_MASKED(d, v4si, int, v4si)
ASANCOL_MASKED(d256, v8si, int, v8si)
ASANCOL_MASKED(q, v2di, long, v2di)
ASANCOL_MASKED(q256, v4di, long, v4di)
#define __builtin_ia32_maskloadps(...) asancol_maskloadps(__VA_ARGS__)
#define __builtin_ia32_maskloadps256(...) asancol_maskloadps256(__VA_ARGS__)
#define __builtin_ia32_maskloadpd(...) asancol_maskloadpd(__VA_ARGS__)
#define __builtin_ia32_maskloadpd256(...) asancol_maskloadpd256(__VA_ARGS__)
#define __builtin_ia32_maskloadd(...) asancol_maskloadd(__VA_ARGS__)
#define __builtin_ia32_maskloadd256(...) asancol_maskloadd256(__VA_ARGS__)
#define __builtin_ia32_maskloadq(...) asancol_maskloadq(__VA_ARGS__)
#define __builtin_ia32_maskloadq256(...) asancol_maskloadq256(__VA_ARGS__)
#define __builtin_ia32_maskstoreps(...) asancol_maskstoreps(__VA_ARGS__)
#define __builtin_ia32_maskstoreps256(...) asancol_maskstoreps256(__VA_ARGS__)
#define __builtin_ia32_maskstorepd(...) asancol_maskstorepd(__VA_ARGS__)
#define __builtin_ia32_maskstorepd256(...) asancol_maskstorepd256(__VA_ARGS__)
#define __builtin_ia32_maskstored(...) asancol_maskstored(__VA_ARGS__)
#define __builtin_ia32_maskstored256(...) asancol_maskstored256(__VA_ARGS__)
#define __builtin_ia32_maskstoreq(...) asancol_maskstoreq(__VA_ARGS__)
#define __builtin_ia32_maskstoreq256(...) asancol_maskstoreq256(__VA_ARGS__)
#undef ASANCOL_MASKED
#endif

#undef ASANCOL_GATHER
#undef ASANCOL_INLINE
#undef ASANCOL_LOOSE
#undef ASANCOL_VECTOR
#endif
