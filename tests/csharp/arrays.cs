// Arrays of several ranks, arrays of arrays, and arrays of most things in between.
using System;
using System.Collections.Generic;

namespace Grids
{
    public class Grid
    {
        public int[,] Plane = new int[3, 4];
        public double[,,] Space = new double[2, 2, 2];
        public string[][] Rows;
        public byte[][,] Pages;
        public byte[,][] Turned;
        public object[,,,][][,] Deep;

        public int[] Line(int[] from)
        {
            return (int[]) from.Clone();
        }

        public int[,] Transpose(int[,] from)
        {
            int[,] to = new int[from.GetLength(1), from.GetLength(0)];
            for (int i = 0; i < from.GetLength(0); i++)
            {
                for (int j = 0; j < from.GetLength(1); j++)
                {
                    to[j, i] = from[i, j];
                }
            }
            return to;
        }

        public long[][][] Jagged(short[][] a, ushort[] b, uint[][][][] c)
        {
            return new long[1][][];
        }

        public byte[][,][,,] Mixed(sbyte[,][] a, char[][,,] b, bool[,,,,,,,] c)
        {
            return null;
        }

        public void Fill(ref int[,] plane, out string[][] rows, params float[] values)
        {
            plane = null;
            rows = null;
        }

        public Dictionary<int[], string[,]>[] Tables(List<int[]>[,] lists, KeyValuePair<int[,], int[][]>[][] pairs)
        {
            return null;
        }

        public int Sum(params object[][] all)
        {
            int total = 0;
            foreach (object[] some in all)
            {
                total += some.Length;
            }
            return total;
        }

        public Array Any(Array one, IList<int[]> two, IEnumerable<string[,]>[] three)
        {
            return one;
        }

        public DayOfWeek[,] Days(DateTime[] dates, TimeSpan?[] spans, decimal?[,] sums)
        {
            return null;
        }
    }

    public class Matrix<T>
    {
        private readonly T[,] cells;

        public Matrix(int rows, int columns)
        {
            cells = new T[rows, columns];
        }

        public T this[int row, int column]
        {
            get { return cells[row, column]; }
            set { cells[row, column] = value; }
        }

        public T[][] Split(Func<T[,], T[]> by)
        {
            return new[] { by(cells) };
        }

        public Matrix<T[,]>[] Blocks(Matrix<T>[,] of)
        {
            return null;
        }
    }
}
