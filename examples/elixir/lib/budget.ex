defmodule Budget do
  @moduledoc """
  Calls a function until it answers `{:ok, value}`, with a second between, for so many milliseconds. `:looks` is right: it looks
  at the clock before each call. `:sums` has a fault: it adds up what it meant to wait, and calls too late where a wait took
  longer.
  """

  @wait 1_000

  def run(:looks, fun, milliseconds), do: looks(fun, System.monotonic_time(:millisecond) + milliseconds)
  def run(:sums, fun, milliseconds), do: sums(fun, milliseconds)

  defp looks(fun, ends) do
    case System.monotonic_time(:millisecond) < ends and fun.() do
      false ->
        :timeout

      {:ok, value} ->
        {:ok, value}

      :error ->
        Process.sleep(@wait)
        looks(fun, ends)
    end
  end

  defp sums(_, left) when left <= 0, do: :timeout

  defp sums(fun, left) do
    case fun.() do
      {:ok, value} ->
        {:ok, value}

      :error ->
        Process.sleep(@wait)
        sums(fun, left - @wait)
    end
  end
end
