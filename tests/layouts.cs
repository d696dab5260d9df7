// Structures and classes with a packing, a size, both or neither, for tests/layouts. What the compiler makes of them `monodis
// --classlayout` tells; it adds a size of 1 to a structure without fields, and a class of the array's size for the bytes of an initialiser.
using System.Runtime.InteropServices;

namespace Layouts
{
    [StructLayout(LayoutKind.Sequential, Pack = 1)]
    public struct Packed { public byte A; public int B; }

    [StructLayout(LayoutKind.Sequential, Size = 24)]
    public struct Sized { public int A; }

    [StructLayout(LayoutKind.Explicit, Pack = 8, Size = 64)]
    public struct Both { [FieldOffset(0)] public int A; [FieldOffset(0)] public float B; }

    [StructLayout(LayoutKind.Sequential, Pack = 128, Size = 2147483647)]
    public struct Largest { public byte A; }

    public struct Empty { }

    public struct Neither { public byte A; }

    [StructLayout(LayoutKind.Sequential, Pack = 16)]
    public struct Generic<T> { public T A; }

    [StructLayout(LayoutKind.Sequential, Pack = 4)]
    public class Reference { public byte A; public long B; }

    public class Outer
    {
        public static readonly int[] Squares = { 0, 1, 4, 9, 16, 25, 36, 49, 64 };

        [StructLayout(LayoutKind.Sequential, Pack = 2)]
        public struct Nested { public byte A; public long B; }

        [StructLayout(LayoutKind.Auto, Pack = 4, Size = 8)]
        public struct AlsoNested { public int A; }
    }
}
