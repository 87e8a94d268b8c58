// OpenTelemetry's exporter for Jaeger, as clients.py drives it: spans of one trace in two batches, to the address in
// OTEL_EXPORTER_JAEGER_ENDPOINT. It prints the id of the trace and those of its three spans. The span of the second batch has a text of
// as many bytes as the argument says.
package main

import (
	"context"
	"fmt"
	"os"
	"strconv"
	"strings"
	"time"

	"go.opentelemetry.io/otel/attribute"
	"go.opentelemetry.io/otel/codes"
	"go.opentelemetry.io/otel/exporters/jaeger"
	"go.opentelemetry.io/otel/sdk/resource"
	sdk "go.opentelemetry.io/otel/sdk/trace"
	"go.opentelemetry.io/otel/trace"
)

func orEnd(err error) {
	if err != nil {
		fmt.Fprintln(os.Stderr, err)
		os.Exit(1)
	}
}

func seconds(count int64) trace.SpanEventOption {
	return trace.WithTimestamp(time.Unix(1_700_000_000+count, 0))
}

func main() {
	size, err := strconv.Atoi(os.Args[1])
	orEnd(err)
	exporter, err := jaeger.New(jaeger.WithCollectorEndpoint())
	orEnd(err)
	process := resource.NewSchemaless(attribute.String("service.name", "go shop"), attribute.String("host.name", "h1"))
	provider := sdk.NewTracerProvider(sdk.WithBatcher(exporter, sdk.WithMaxExportBatchSize(2)), sdk.WithResource(process))
	tracer := provider.Tracer("clients")
	ctx := context.Background()
	other := trace.NewSpanContext(trace.SpanContextConfig{TraceID: trace.TraceID{7: 8}, SpanID: trace.SpanID{7: 7}})

	above, parent := tracer.Start(ctx, "checkout", seconds(0), trace.WithSpanKind(trace.SpanKindServer), trace.WithAttributes(
		attribute.Int("count", 3), attribute.Float64("share", 0.5), attribute.Bool("paid", true), attribute.String("text", "gr\u00fcn")))
	parent.AddEvent("asked", seconds(1), trace.WithAttributes(attribute.Int("size", 7)))
	_, child := tracer.Start(above, "charge", seconds(2), trace.WithLinks(trace.Link{SpanContext: other}))
	child.SetStatus(codes.Error, "no money")
	child.End(seconds(3))
	parent.End(seconds(4))

	_, late := tracer.Start(above, "late", seconds(5), trace.WithAttributes(attribute.String("text", strings.Repeat("x", size))))
	late.End(seconds(6))
	orEnd(provider.Shutdown(ctx))

	fmt.Println(parent.SpanContext().TraceID())
	for _, span := range []trace.Span{parent, child, late} {
		fmt.Println(span.SpanContext().SpanID())
	}
}
