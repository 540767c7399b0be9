# The examples of the documentation in Elixir, and the programs over texts.
defmodule ErtimeTest do
  use ExUnit.Case
  doctest Ertime

  @scenario ~S({"format":1,"first":[0,0],"ops":[["start",1,0,"rel",9,0,10],["cancel_async",1,0],["serve",0],["receive",0]]})
  @history "settings no false 0 1 1 1 1 0 0\nc0 - peek 0 0 18446744073709551616 none\n"

  test "a scenario" do
    transcript = "start ok\ncancel_async ok\nserve 1\nreceive cancel_timer 1 9\nend 0\n"
    assert {:ok, transcript} == Ertime.run_scenario(@scenario)
    assert {:ok, transcript} == @scenario |> String.graphemes() |> Ertime.run_scenario()

    assert {:error, :too_long} ==
             Ertime.run_scenario([String.duplicate(" ", 16_777_216), @scenario])

    assert_raise ArgumentError, ~r/neither a binary nor a list/, fn ->
      Ertime.run_scenario(:scenario)
    end
  end

  test "a history" do
    message =
      "history:2:15: \"18446744073709551616\": expected a number from 0 to 18446744073709551615\n"

    assert {:error, {:refused, message}} == Ertime.judge(@history)
    assert_raise ArgumentError, ~r/neither a binary nor a list/, fn -> Ertime.judge(nil) end
  end

  test "each function is documented" do
    for module <- [Ertime, Ertime.Case, Ertime.Generators] do
      assert {:docs_v1, _, :elixir, _, %{"en" => _}, _, docs} = Code.fetch_docs(module)
      assert [] == for({{:function, _, _} = name, _, _, :none, _} <- docs, do: name)
    end
  end
end
